xstate 1
machine amx
cpus 1
quantum 2
large 0
task a
set k1 1111111111111111
get k1
get k1
set k1 3333333333333333
get k1
end
task b
get k1
end
