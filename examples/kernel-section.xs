xstate 1
machine amx
cpus 1
quantum 2
large 0
task a
set k0 0102030405060708
ksec aa
get k0
get xmm0
end
kthread k
ksec bb
end
