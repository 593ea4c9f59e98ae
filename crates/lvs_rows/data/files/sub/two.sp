.subckt two a b
M1 a b b b n l=1u w=2u
.ends
