xstate 1
machine amx
cpus 1
quantum 2
large 0
task a
set pkru 0c000000
get pkru
get pkru
end
kthread k
yield
yield
end
