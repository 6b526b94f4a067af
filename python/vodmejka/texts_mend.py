"""The sentences on what to mend of errors that name no place in rules, drivers or households, and of marked files, in English and French."""

TEXTS = {
    "other.usage": (
        'The words are no command: run, serve, batch and cases have four words after them, compile, lint and check three, exec two; - stands for no '
        'driver or no requests.',
        "Ces arguments ne forment pas une commande : run, serve, batch et cases en prennent quatre, compile, lint et check trois, exec deux ; "
        "- tient lieu d'un pilote absent ou de requêtes absentes."),
    "other.input": (
        'The standard input could not be read.',
        "L'entrée standard n'a pas pu être lue."),
    "other.unreadable": (
        "The file isn't there, is a folder, or may not be read; names in a list count from where the program is started.",
        "Le fichier est absent, est un dossier, ou ne peut pas être lu ; les noms d'une liste sont relatifs au dossier où le programme est lancé."),
    "other.file_long": (
        'A file has at most 16,777,216 bytes, and all rule files together 67,108,864: split it.',
        'Un fichier a au plus 16 777 216 octets, et tous les fichiers de règles ensemble 67 108 864 : scindez-le.'),
    "other.files_many": (
        'A list has at most 1,024 names: join some rule files.',
        'Une liste a au plus 1 024 noms : réunissez des fichiers de règles.'),
    "other.cycle": (
        'Each of these is read by the formula of the one before it, and the first by the last: break the cycle at one of them.',
        "Chaque variable est lue par la formule de celle qui la précède, et la première par celle de la dernière : rompez le cycle à l'une d'elles."),
    "other.no_main": (
        'A run begins at the function main: write one, main():, with its commands under it.',
        'Un calcul commence à la fonction main : écrivez-en une, main():, avec ses commandes au-dessous.'),
    "other.recursion": (
        'These functions call each other in a cycle: write the commands of one out.',
        "Ces fonctions s'appellent en cycle : remplacez l'un des appels par les commandes de la fonction."),
    "other.large": (
        'The run would cost more than 4,000,000: call the rules less often, or shorten them.',
        'Le calcul coûterait plus de 4 000 000 : appelez moins souvent les règles, ou raccourcissez-les.'),
    "other.requests": (
        'At most 100,000 values can be asked for at once: ask for fewer.',
        'Au plus 100 000 valeurs peuvent être demandées à la fois : demandez-en moins.'),
    "other.header": (
        'The first line is code,amount with a comma and no blanks; that of a table begins with name; tools/table-in writes both.',
        "La première ligne est code,amount avec une virgule et sans espace ; celle d'une table commence par name ; tools/table-in écrit les deux."),
    "other.rows": (
        'At most 100,000 rows: split the table, as tools/scale does.',
        'Au plus 100 000 lignes : découpez la table, comme le fait tools/scale.'),
    "other.code_unknown": (
        'No input has the code after set or clear.',
        "Aucune variable saisie n'a le code qui suit set ou clear."),
    "other.variable_unknown": (
        'No variable has the name after why; a cell of a table is written T[2], and the table itself is none.',
        "Aucune variable ne porte le nom qui suit why ; une cellule de tableau s'écrit T[2], et le tableau lui-même n'est pas une variable."),
    "other.amount": (
        'The amount after set is digits, a point and digits, perhaps with a -, at most 10000000000000.',
        "Le montant qui suit set s'écrit en chiffres, au besoin après un - et avec un point et des décimales ; il vaut au plus 10000000000000."),
    "other.type": (
        "The amount after set isn't one that the input may have: a box takes 0 and 1, a count whole units.",
        "La variable saisie n'admet pas le montant qui suit set : une case à cocher admet 0 ou 1, un nombre des unités entières."),
    "other.command": (
        'A session knows set CODE AMOUNT, clear CODE, show and why NAME.',
        'Une session connaît set CODE AMOUNT, clear CODE, show et why NAME.'),
    "other.report_line": (
        'A line of a report is NAME = AMOUNT, NAME undefined or NAME over, with one blank between.',
        "Une ligne d'une justification est NAME = AMOUNT, NAME undefined ou NAME over, avec une espace entre les mots."),
    "other.report_sound": (
        "The line doesn't follow from those above it: a cell twice, a cell that it reads and no line has, or another value.",
        "La ligne ne découle pas de celles qui la précèdent : une cellule figure deux fois, une cellule lue n'a pas de ligne, ou la valeur est autre."),
    "other.line_long": (
        'A line of a session has at most 4,096 bytes; this one was skipped.',
        "Une ligne d'une session a au plus 4 096 octets ; celle-ci a été ignorée."),
    "other.input_long": (
        'The session has taken 1,099,511,627,776 bytes: begin a new one.',
        'La session a reçu 1 099 511 627 776 octets : commencez-en une nouvelle.'),
    "other.code_header": (
        'The file is no code file: its first line is mcode 1.',
        "Le fichier n'est pas un fichier de code : sa première ligne serait mcode 1."),
    "other.failed": (
        "The verification's condition holds for this household: look at its amounts, or at the verification.",
        'La condition de la vérification est vraie pour ce foyer : regardez ses montants, ou la vérification.'),
    "other.over": (
        "The verification's condition passes 10000000000000: look for an amount that is too great.",
        'La condition de la vérification dépasse 10000000000000 : cherchez un montant trop grand.'),
    "mend.code": (
        'The code file was changed or cut: write it anew by compile.',
        'Le fichier de code a été modifié ou tronqué : recréez-le par compile.'),
    "mend.marked": (
        'The file begins with a byte order mark: save it as UTF-8 without one; a household alone may have one.',
        "Le fichier commence par une marque d'ordre des octets : enregistrez-le en UTF-8 sans cette marque ; seul un foyer peut en avoir une."),
}
