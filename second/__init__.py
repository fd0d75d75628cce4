"""The second program: documents 01 and 02 once more, in whole numbers, sharing nothing with the library that it is held
against.

From the bottom up: exact, sheet, f64, bracket, exponential, logarithm, kind, term, equation (the step rules),
level (the equation itself), verdict, lent (the calls with a lent slice of terms), virial (the vapour card), panel,
bench; and output, text (tables typed as text) and convert (tables of one kind made into the other), which need kind and
term alone.
The count of bits is `bits` in the rules, which hold for any; the public calls take it as `width`, their first
parameter, which is 32 or 53.  Behind it they take the table's kind by its number, 38 or 58, but for the vapour card,
which has no kind; the rules take a Kind, or none.
"""
