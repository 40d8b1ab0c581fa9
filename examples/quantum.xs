xstate 1
machine amx
cpus 1
quantum 2
large 0
task short
set xmm5 05050505050505050505050505050505
end
task long
set xmm5 aaaaaaaaaaaaaaaaaaaaaaaaaaaaaaaa
get xmm5
set xmm5 bbbbbbbbbbbbbbbbbbbbbbbbbbbbbbbb
get xmm5
end
