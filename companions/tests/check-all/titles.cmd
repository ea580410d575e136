# A plan has semicolons where its list has them, also below a title that has none.
mkdir -p weeks
printf 'Wochenplan KW 10\n\nAuftrag;Dauer [h];Termin\nSäge;1,5;Mo 02.03.2026 12 Uhr\nTür;2;02.03.26 09:00\n' > weeks/kw10.csv
printf 'Auftrag,Dauer [h],Termin\n"Tür; links",2,2026-03-02 09:00\n' > weeks/kw11.csv
check-all weeks '1||Lmax' --column job=Auftrag --column time=Dauer --column due=Termin --start '2026-03-02 06:00' --scale 2
cat weeks/plans/kw10.plan.csv weeks/plans/kw11.plan.csv
