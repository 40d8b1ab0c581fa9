xstate 1
machine amx
cpus 1
quantum 8
large 1
task a
perm 18
set tilecfg 01010101010101010101010101010101010101010101010101010101010101010101010101010101010101010101010101010101010101010101010101010101
set tmm0.0 5a5a5a5a5a5a5a5a5a5a5a5a5a5a5a5a5a5a5a5a5a5a5a5a5a5a5a5a5a5a5a5a5a5a5a5a5a5a5a5a5a5a5a5a5a5a5a5a5a5a5a5a5a5a5a5a5a5a5a5a5a5a5a5a
fork c
kill a 10
get tmm0.0
tilerelease
get tmm0.0
handler
get tmm0.0
peek 468 16
peek 11008 4
sigreturn
end
child c
get tilecfg
yield
yield
get tmm0.0
end
