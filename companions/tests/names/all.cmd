msp label < examples/known-strengths.csv > labels
cp examples/known-strengths.csv known.csv
PYTHONPATH=$(dirname "$(command -v cite)") python3 check.py "$(dirname "$(command -v cite)")/../docs/results/names.csv" labels \
    "$(dirname "$(command -v cite)")/../docs/notation.md"
