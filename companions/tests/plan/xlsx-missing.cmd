# Without openpyxl it is said what to install.
mkdir none && echo 'raise ImportError' > none/openpyxl.py
PYTHONPATH=none plan orders.report --names names.csv --xlsx plan.xlsx; echo "status $?"
