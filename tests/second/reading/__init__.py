"""The reference implementation: what the program does, in Python. It is written from the documents and uses no code of the program.

`commands.output(words, files, typed)` is what the program prints for the words of its command line, the files and what
is typed into its input, and the number that it ends with. The modules, in the order in which a source meets them:

    texts           lines and words                               docs/FORMATS.md
    amounts         amounts, values, operators                    docs/AMOUNTS.md
    faults          what ends a command early
    tokens          rule files to tokens                          docs/LANGUAGE.md
    trees           what terms and items are made of
    terms           tokens to headers and expressions
    items           tokens to items
    declarations    variables, cells, inputs, errors
    expansion       loops to their instances
    names           names to cells: the base of the rules
    values          cycles, an order, values, verifications
    driver_lines    drivers to lines and their tokens             docs/DRIVER.md
    driver_grammar  lines to functions and commands
    driver_names    names of drivers to cells and functions
    driver_runs     the weight of a driver, and what it does
    files           lists, requests, households, tables           docs/FORMATS.md
    sources         a whole source, and its answers
    code_files      code files, and the answers of their code     docs/CODE.md
    generated       the source of `large N`                       docs/SESSIONS.md
    commands        words, steps, what is printed                 docs/FORMATS.md, docs/SESSIONS.md

Texts, names and lines are bytes throughout.
"""
