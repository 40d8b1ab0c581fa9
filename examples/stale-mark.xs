xstate 1
machine amx
cpus 2
quantum 1
large 0
task a
set k1 1111111111111111
set k1 2222222222222222
get k1
end
