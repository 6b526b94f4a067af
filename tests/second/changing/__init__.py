"""Changed rows: the files of a worked row with some changes, about half of which leave a source that has an answer.

All is drawn from a generator of random numbers that is handed in, so that the same seed gives the same rows.
`rows.changed_row` makes one; a change is wild where it is likely to leave no valid source, and else gentle.

    drawing     numbers and words to draw from, pieces of a text, lines
    naming      what the files of a row name
    terms       terms of rules and of drivers
    rules       changes of rule files
    drivers     changes of drivers
    codes       code files that are drawn and changed
    files       changes of lists, requests, households, tables, and of what is typed
    rows        which file of a row is changed
    surveys     rows of m_survey: tables and facts
    bases       small rule bases that are drawn, with what each cell reads
    reports     reports of these, and changes of them
"""
