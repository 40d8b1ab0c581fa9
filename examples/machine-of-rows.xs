xstate 1
machine rows
row 0 160 0 0
row 1 256 160 0
row 2 256 640 2
row 9 8 1024 0
cpus 1
quantum 2
large 0
task a
set xmm15 0f0e0d0c0b0a09080706050403020100
get xmm15
get xmm0
end
task b
get xmm15
end
