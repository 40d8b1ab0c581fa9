xstate 1
machine amx
cpus 1
quantum 4
large 0
task a
set xmm3 00112233445566778899aabbccddeeff
get xmm3
get xmm4
end
