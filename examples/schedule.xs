xstate 1
machine amx
cpus 2
quantum 1
large 0
sched 0 1 0 1
sched 0 0 0 0 0 0
task a
set xmm0 11111111111111111111111111111111
get xmm0
get xmm0
end
kthread w
ksec 5a
ksec 5b
end
