"""What `slips` and `why` say, in English and French. A place, as FILE line L byte B, and the lines of the program stay as they are."""

TEXTS = {
    "slips.words": ("words: slips [--driver FILE] [--lang en|fr] LIST..; see --help", "usage : slips [--driver FICHIER] [--lang en|fr] LISTE.. ; voir --help"),
    "slips.more": ("{fault}; tools/explain --all says more", "{fault} ; tools/explain --all en dit plus"),
    "slips.past": ("{cell} is past the table, which has {size} cells, and is undefined", "{cell} sort du tableau, qui a {size} cellules, et est indéfinie"),
    "slips.below": ("{cell} is past the table, which has {size} cells, and is 0", "{cell} sort du tableau, qui a {size} cellules, et vaut 0"),
    "slips.cells": ("nothing sets {cells}, {count} of {size} cells", "rien ne calcule {cells}, {count} cellules sur {size}"),
    "slips.unset": (
        "variables or cells that are read and never set: {count}; m_tax lint {list} {driver} - names them",
        "variables ou cellules lues mais jamais calculées : {count} ; m_tax lint {list} {driver} - en donne les noms"),
    "slips.kind": ("no input has {attribute} = {values}", "aucune variable saisie n'a {attribute} = {values}"),
    "slips.mark": (
        "a byte order mark, which the program refuses here: save the file as UTF-8 without one",
        "une marque d'ordre des octets, que le programme refuse ici : enregistrez le fichier en UTF-8 sans cette marque"),
    "slips.return": (
        "a carriage return alone, which ends no line: a comment or a name goes on after it",
        "un retour chariot seul, qui ne termine pas la ligne : un commentaire ou un nom se poursuit au-delà"),
    "slips.folder": (
        "its files are those of {folder}, as {name}, and not those beside the list",
        "ses fichiers sont ceux de {folder}, comme {name}, et non ceux qui se trouvent à côté de la liste"),
    "slips.none_returned": ("no variable has restituee", "aucune variable n'est restituee"),
    "slips.no_rule": ("no rule is of the application {application}", "aucune règle n'appartient à l'application {application}"),
    "slips.numbered": ("restituee = .. returns nothing, of {name}", "restituee = .. ne restitue rien, pour {name}"),
    "slips.application": (
        "application {application} is of no list that is given; rules and verifications: {count}",
        "l'application {application} n'est celle d'aucune des listes données ; règles et vérifications : {count}"),
    "slips.type": (
        "the type {type} of {name} is none of {types}, and says nothing",
        "le type {type} de {name} n'est aucun des types {types}, et reste sans effet"),
    "slips.attribute": (
        "the attribute {word} of {name} isn't restituee, and returns nothing",
        "l'attribut {word} de {name} n'est pas restituee, et ne restitue rien"),
    "slips.regle": ("the rule {number} stands twice; the first is {place}", "la règle {number} figure deux fois ; la première est {place}"),
    "slips.verif": ("the verification {number} stands twice; the first is {place}", "la vérification {number} figure deux fois ; la première est {place}"),
    "slips.letter": (
        "the letter {letter} is bound again within its own loop, and means the inner one there",
        "la lettre {letter} est liée de nouveau dans sa propre boucle, et y désigne la boucle intérieure"),
    "slips.always": (
        "the condition holds for every household, so {error} always stops",
        "la condition est vraie pour tous les foyers : {error} arrête toujours le calcul"),
    "slips.constants": ("constants that nothing reads: {count}, {names}", "constantes que rien ne lit : {count}, {names}"),
    "slips.computed": (
        "computed variables that nothing reads or returns: {count}, {names}",
        "variables calculées que rien ne lit ni ne restitue : {count}, {names}"),
    "slips.errors": ("errors that no verification has: {count}, {names}", "erreurs qu'aucune vérification ne lève : {count}, {names}"),
    "slips.returned": ("{name} is returned, and nothing sets it", "{name} est restituée, et rien ne la calcule"),
    "slips.received": (
        "{name} is returned, and {driver} never receives or sets it, so it stays undefined",
        "{name} est restituée, et {driver} ne la reçoit ni ne la calcule jamais : elle reste indéfinie"),
    "why.words": (
        "words: why LIST HOUSEHOLD NAME [--depth N] [--only-nonzero] [--against OTHER] [--html FILE [--open]] [--report] [--lang en|fr], or --driver DRIVER; "
        "see --help",
        "usage : why LISTE FOYER NOM [--depth N] [--only-nonzero] [--against AUTRE] [--html FICHIER [--open]] [--report] [--lang en|fr], ou --driver PILOTE ; "
        "voir --help"),
    "why.depth": ("--depth wants a number from 1 on, and not {text}", "--depth attend un nombre à partir de 1, et non {text}"),
    "why.tree_alone": (
        "--driver shows a tree alone, and neither a page, a report nor what differs",
        "--driver ne montre qu'un arbre : ni page, ni justification, ni différences"),
    "why.unsound": ("check of the report says {what}", "la vérification de la justification répond {what}"),
    "why.unsound_there": ("check of the report at line {line} says {what}", "la vérification de la justification à la ligne {line} répond {what}"),
    "why.stopped": ("stopped, so a run has no values: {stop}", "le calcul s'arrête, et n'a donc pas de valeurs : {stop}"),
    "why.verif": ("{file} line {line}, verif {number}", "{file} ligne {line}, verif {number}"),
    "why.rule": ("{file} line {line}, rule {number}", "{file} ligne {line}, règle {number}"),
    "why.taken": ("{place}; taken: {what}", "{place} ; pris : {what}"),
    "why.no_branch": ("no branch", "aucune branche"),
    "why.there": ("(there {value})", "(autre foyer : {value})"),
    "why.nothing": ("nothing", "rien"),
    "why.above": ("as above", "comme ci-dessus"),
    "why.no_rule": ("no rule sets it", "aucune règle ne la calcule"),
    "why.declared": ("declared, {code}", "déclarée, {code}"),
    "why.constant": ("a constant", "une constante"),
    "why.constant_told": ("a constant: {comment}", "une constante : {comment}"),
    "why.command": ("{driver} line {line}{where}", "{driver} ligne {line}{where}"),
    "why.in_function": (", in {name}", ", dans {name}"),
    "why.in_partition": (", in the partition of line {line}", ", dans la partition de la ligne {line}"),
    "why.if_holds": (", where the if of line {line} holds", ", où le if de la ligne {line} est vrai"),
    "why.if_not": (", where the if of line {line} doesn't hold", ", où le if de la ligne {line} est faux"),
    "why.other_value": (
        "the commands that were followed come to another value of {name} than the driver's run, {value}",
        "les commandes suivies donnent à {name} une autre valeur que le calcul du pilote, {value}"),
    "why.unseen": (
        "the values at line {line} are not looked at by check: the driver sets {what} before",
        "les valeurs à la ligne {line} ne sont pas vérifiées par check : le pilote calcule {what} avant"),
    "why.an_input": ("an input", "une variable saisie"),
    "why.page": (
        "Why, by the rules of {list} for the household {household}. The report was checked line by line.",
        "Pourquoi, selon les règles de {list}, pour le foyer {household}. La justification a été vérifiée ligne par ligne."),
    "why.no_plain": ("{page} is no plain file", "{page} n'est pas un fichier ordinaire"),
    "why.is_read": ("{page} is read, and would be lost", "{page} est lu, et serait perdu"),
    "why.no_name": ("no variable of this name: {line}", "aucune variable de ce nom : {line}"),
    "why.no_lines": ("the program's answer isn't a line for each cell", "la réponse du programme n'a pas une ligne pour chaque cellule"),
}
