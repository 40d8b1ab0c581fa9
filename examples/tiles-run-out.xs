xstate 1
machine amx
cpus 1
quantum 8
large 1
task a
perm 9
perm 18
get tmm0.0
yield
end
task b
perm 18
get tmm0.0
end
task c
get tmm0.0
end
