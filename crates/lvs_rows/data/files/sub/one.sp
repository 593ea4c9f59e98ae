.include two.sp
.subckt one a b
X1 a b two
.ends
