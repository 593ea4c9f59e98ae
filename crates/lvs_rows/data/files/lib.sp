.subckt INVX1 a y vdd gnd
MP y a vdd vdd pfet w=8u l=ln ad='8u * 1u'
+ ps=2u
MN y a gnd gnd nfet w=wn l=ln
.ends
.subckt PAD pin vdd gnd
R1 pin vdd 100
.ends
.end
MDEAD vdd vdd gnd gnd nfet w=1u l=1u
