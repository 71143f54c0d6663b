# The total of examples/total with its printed form: five digits of the total after each record, 66 lines a page.
{
    total = (total + $1) % 100000
    if (NR > 1) printf "%s", (NR % 66 == 1 ? "\f" : "\n")
    printf "%05d", total
}
END { if (NR > 0) printf "\n" }
