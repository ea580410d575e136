# Late jobs by windows of time: two have more work than time, and one job is late even alone. Evidence of it is verified, and refused with windows
# that share a job, one whose work fits, and one of other jobs.
cat > rush.txt <<'TEXT'
msp 1
class 1|r|sumwU
job posters p=4 r=0 d=5 w=3
job flyers p=4 r=0 d=6 w=2
job pages p=4 r=10 d=15 w=5
job cover p=4 r=11 d=16 w=4
job cards p=2 r=3 d=30 w=1
job stamps p=5 r=12 d=14 w=1
end
TEXT
propose rush.txt --evidence evidence | sed '/^schedule/,$d'
cat evidence/bounds.txt evidence/bound-1-step-1.txt
verify evidence
for windows in 10-16,0-16 10-16,0-5 11-16,0-6; do
    rm -rf other && cp -r evidence other && sed -i "s/10-16,0-6/$windows/" other/bounds.txt
    verify other; echo "status $?"
done
