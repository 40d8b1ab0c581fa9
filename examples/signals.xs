xstate 1
machine amx
cpus 1
quantum 8
large 0
task a
set xmm0 11111111111111111111111111111111
set ymmh0 22222222222222222222222222222222
set pkru 0c000000
kill a 10
get xmm0
get ymmh0
get pkru
kill b 10
handler
get xmm0
get pkru
peek 464 20
peek 512 8
peek 2816 4
poke 160 33
sigreturn
end
task b
set xmm0 44444444444444444444444444444444
set ymmh0 55555555555555555555555555555555
kill b 12
get xmm0
get ymmh0
get pkru
yield
handler
yield
poke 464 00
sigreturn
end
