xstate 1
machine amx
cpus 2
quantum 4
large 0
sched 0 0 0 1 0 0 0 1
task p
set pkru 0c000000
set xmm0 11111111111111111111111111111111
fork c
get pkru
set pkru 00000000
set xmm0 22222222222222222222222222222222
get xmm0
end
child c
get pkru
get xmm0
set xmm0 33333333333333333333333333333333
end
kthread w
yield
end
