xstate 1
machine amx
cpus 1
quantum 8
large 0
task a
set xmm0 11111111111111111111111111111111
kill a 10
get xmm0
handler
poke 528 01
sigreturn
end
task b
get xmm0
end
