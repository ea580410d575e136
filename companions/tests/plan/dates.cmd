plan --instance orders.txt --time-unit 15min --start '2026-12-31 23:00' < late.report
plan --time-unit 20s --start '2026-03-02 08:00' --csv < thirds.report
plan --time-unit 1s --start '2026-03-02 08:00' --csv < thirds.report
