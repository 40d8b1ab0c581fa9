xstate 1
machine amx
cpus 2
quantum 8
large 0
sched 1 1 0 0 1 1 1 1 1 1 1 1 1 1 1 1 0 0 1 1 1 1 1 1 0 0 1 1 1 1 1 1
task d
fork c
wait c
getregs c xstate
bpeek 512 2
bpeek 160 16
bpoke 160 ff
bpoke 576 77777777777777777777777777777777
bpoke 512 26
bpoke 520 01
setregs c xstate 11008
bpoke 520 00
setregs c xstate 11008
getregs c xstate
bpeek 512 2
cont c
wait c
getregs c fx
bpeek 24 4
cont c
wait c
getregs c fx
end
child c
set xmm0 11111111111111111111111111111111
set k1 2222222222222222
stop
get xmm0
get ymmh0
get k1
set mxcsr a01f0000
stop
get mxcsr
end
