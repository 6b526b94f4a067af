"""The messages of the tools, in English and French: each sentence whole, by its key. The program's own messages are left unchanged.

The language is the one that `--lang` names, or the one of messages on this machine (LC_ALL, LC_MESSAGES or LANG).
"""
from __future__ import annotations

import os

from . import texts_help, texts_mend, texts_reform, texts_tools

ENGLISH, FRENCH = "en", "fr"

TEXTS = {
    **texts_mend.TEXTS,
    **texts_tools.TEXTS,
    **texts_help.TEXTS,
    **texts_reform.TEXTS,
    "rule.bad byte": (
        "No token begins here: accented letters stand in texts and comments only, and a point between digits.",
        "Aucun jeton ne commence ici : les lettres accentuées ne se trouvent que dans les textes et les commentaires, et un point entre des chiffres."),
    "rule.open string": (
        'The text that begins here is never closed; look for a " that is missing, here or in a text above or below.',
        "Le texte qui commence ici n'est jamais fermé : cherchez un \" manquant, ici ou dans un texte au-dessus ou au-dessous."),
    "rule.number too great": (
        "Numbers end at 10000000000000.",
        "Le plus grand nombre est 10000000000000."),
    "rule.too deep": (
        "More than 256 brackets and conditionals are open here: give a part of the formula a variable of its own.",
        "Plus de 256 parenthèses et conditions sont ouvertes ici : donnez à une partie de la formule sa propre variable."),
    "rule.syntax": (
        "What begins here can't be read: look, up to the next ;, for a ; or finsi that is missing, or a word where a sign stands.",
        "Ce qui commence ici ne peut pas être lu : cherchez, jusqu'au prochain ;, un ; ou un finsi manquant, ou un mot à la place d'un signe."),
    "rule.declared twice": (
        "An earlier declaration has this name: leave one out, or rename it.",
        "Une déclaration précédente porte ce nom : supprimez-en une, ou renommez-la."),
    "rule.alias twice": (
        "An earlier input has this code: give each box of the form one input.",
        "Une variable saisie précédente a ce code : donnez une variable à chaque case du formulaire."),
    "rule.table size": (
        "A table has 1 to 1,024 cells.",
        "Un tableau a de 1 à 1 024 cellules."),
    "rule.too many cells": (
        "With this declaration the base passes 1,000,000 cells, and a variable is one too: split the base.",
        "Avec cette déclaration, la base dépasse 1 000 000 de cellules, et une variable en compte pour une : scindez la base."),
    "rule.bad range": (
        "A range runs upward, from number to number or from letter to letter, and each letter stands once in a header.",
        "Un intervalle va en croissant, de nombre à nombre ou de lettre à lettre, et chaque lettre figure une fois dans un en-tête."),
    "rule.loop too large": (
        "This header makes more than 10,000 instances: write it as several.",
        "Cet en-tête donne plus de 10 000 instances : écrivez-le en plusieurs."),
    "rule.unbound index": (
        "A small letter here is bound by no loop round it; names of variables have none.",
        "Aucune boucle ne lie cette minuscule ; les noms de variables n'en ont pas."),
    "rule.too many parts": (
        "With this item all formulas, without their loops, pass 2,000,000 names, numbers and operators: shorten the loops.",
        "Avec cet élément, toutes les formules, sans leurs boucles, dépassent 2 000 000 de noms, de nombres et d'opérateurs : raccourcissez les boucles."),
    "rule.unknown name": (
        "No declaration has this name, after letters of loops are replaced: look for a slip, or declare it.",
        "Aucune déclaration ne porte ce nom, une fois les lettres des boucles remplacées : cherchez une faute de frappe, ou déclarez-le."),
    "rule.not a table": (
        "Only tables have an index: leave it out, or declare a table.",
        "Seuls les tableaux ont un indice : supprimez-le, ou déclarez un tableau."),
    "rule.is a table": (
        "A table is read and set cell by cell: write an index in [ ].",
        "Un tableau se lit et se calcule cellule par cellule : écrivez un indice entre [ ]."),
    "rule.bad target": (
        "Rules set computed variables and the cells that a table has: no inputs, no constants.",
        "Une règle fixe une variable calculée ou une cellule d'un tableau : ni variable saisie, ni constante."),
    "rule.defined twice": (
        "A formula above sets this too: join the two by si, or take one to another application.",
        "Une formule précédente la fixe déjà : réunissez les deux par si, ou placez-en une dans une autre application."),
    "rule.unknown error": (
        "The word after erreur is the name of no error: declare it, or look for a slip.",
        "Le mot après erreur n'est le nom d'aucune erreur : déclarez-la, ou cherchez une faute de frappe."),
    "driver.bad token": (
        "No token begins somewhere in this line: look for a tab, an accented letter, or a number above 10000000000000.",
        "Un jeton ne peut pas être lu dans cette ligne : cherchez une tabulation, une lettre accentuée, ou un nombre au-dessus de 10000000000000."),
    "driver.too deep": (
        "More than 256 brackets are open in this line, or it has more than 64 outer lines: write a function of its own.",
        "Plus de 256 parenthèses sont ouvertes dans cette ligne, ou elle a plus de 64 lignes autour d'elle : écrivez une fonction à part."),
    "driver.syntax": (
        "The driver can't be read on from here: look at the indentation, a : that is missing, = for ==, <- for < -.",
        "Le pilote ne peut pas être lu à partir d'ici : vérifiez le retrait ; cherchez un : manquant, = au lieu de ==, <- au lieu de < -."),
    "driver.function twice": (
        "An earlier function has this name, or it is call_m, which is the rules: rename it.",
        "Une fonction précédente porte ce nom, ou c'est call_m, qui désigne les règles : renommez-la."),
    "driver.unknown": (
        "No variable or function has this name, or an index is missing, too many or past the table.",
        "Aucune variable ni fonction ne porte ce nom, ou un indice manque, est de trop ou sort du tableau."),
    "driver.bad target": (
        "Constants can't be set, deleted or received.",
        "Une constante ne peut être ni fixée, ni supprimée, ni reçue."),
    "household.bad row": (
        "A row has two fields (1,5 is two: write 1.5), in a table as many as its first line, with a label that isn't empty.",
        "Une ligne a deux champs (1,5 en fait deux : écrivez 1.5), dans une table autant que la première, avec un nom qui n'est pas vide."),
    "household.unknown code": (
        "No input has this code: codes are the words after alias, and not names.",
        "Aucune variable saisie n'a ce code : les codes sont les mots après alias, et non les noms."),
    "household.bad amount": (
        "An amount is digits, a point and digits, perhaps with a -, no blanks, at most 10000000000000.",
        "Un montant s'écrit en chiffres, au besoin après un - et avec un point et des décimales, sans espace ; il vaut au plus 10000000000000."),
    "household.code twice": (
        "Two rows have this code: add them up, or leave one out.",
        "Deux lignes ont ce code : additionnez-les, ou supprimez-en une."),
    "household.not of its type": (
        "A box (type BOOLEEN) takes 0 and 1, a count (type ENTIER) whole units.",
        "Une case à cocher (type BOOLEEN) admet 0 ou 1, un nombre (type ENTIER) des unités entières."),
    "household.unknown output": (
        "Nothing that is asked for has the name after = : look at the requests.",
        "Rien de ce qui est demandé ne porte le nom qui suit = : vérifiez les requêtes."),
    "household.bad expected": (
        "What is expected is an amount, undefined, over, stop, or nothing.",
        "La valeur attendue est un montant, undefined, over, stop, ou rien."),
    "hint.meant": ("Did you mean {name}?", "Vouliez-vous dire {name} ?"),
    "hint.first": ("The first stands in {place}.", "Le premier se trouve dans {place}."),
    "hint.first_input": ("The first is {name} in {place}.", "Le premier est {name} dans {place}."),
    "hint.is_input": ("{name} is an input.", "{name} est une variable saisie."),
    "hint.is_constant": ("{name} is a constant.", "{name} est une constante."),
    "hint.size": ("{name} has {size} cells, 0 to {last}.", "{name} a {size} cellules, de 0 à {last}."),
    "hint.letter": ("The letter {letters} of {word} is bound by no loop.", "La lettre {letters} de {word} n'est liée par aucune boucle."),
    "hint.letters": ("The letters {letters} of {word} are bound by no loop.", "Les lettres {letters} de {word} ne sont liées par aucune boucle."),
    "coverage.words": (
        "words: coverage LIST DRIVER CASES.. [--least PERCENT] [--except FILE] [--page FILE] [--lcov FILE] [--lang en|fr] [--here]; see --help",
        "usage : coverage LISTE PILOTE CAS.. [--least POURCENTAGE] [--except FICHIER] [--page FICHIER] [--lcov FICHIER] [--lang en|fr] [--here] ; voir --help"),
    "coverage.least": ("--least takes a percentage from 0 to 100, and not {text}", "--least attend un pourcentage de 0 à 100, et non {text}"),
    "coverage.exception.none": ("{name} line {line}: there is no {point}", "{name} ligne {line} : {point} n'existe pas"),
    "coverage.exception.reached": ("{name} line {line}: a case reaches {point}", "{name} ligne {line} : un cas atteint {point}"),
    "coverage.differs": ("nothing is said of coverage: {what}", "la couverture n'est pas donnée : {what}"),
    "coverage.formula": ("no case gives it a value other than 0", "aucun cas ne lui donne une valeur autre que 0"),
    "coverage.si.alors": ("in no case does the condition hold", "la condition n'est vraie dans aucun cas"),
    "coverage.si.sinon": ("in no case is the condition 0", "la condition n'est nulle dans aucun cas"),
    "coverage.max.1": ("in no case is the first argument the greater", "le premier argument n'est le plus grand dans aucun cas"),
    "coverage.max.2": ("in no case is the second argument the greater", "le second argument n'est le plus grand dans aucun cas"),
    "coverage.min.1": ("in no case is the first argument the lesser", "le premier argument n'est le plus petit dans aucun cas"),
    "coverage.min.2": ("in no case is the second argument the lesser", "le second argument n'est le plus petit dans aucun cas"),
    "coverage.cell": ("no case reads it", "aucun cas ne la lit"),
    "coverage.verification": ("it fails in no case", "aucun cas ne la fait échouer"),
    "coverage.command": ("no case reaches it", "aucun cas ne l'atteint"),
    "coverage.if.so": ("in no case does the condition hold", "la condition n'est vraie dans aucun cas"),
    "coverage.if.else": ("in every case the condition holds", "la condition est vraie dans tous les cas"),
    "coverage.of.formula": ("formulas: {reached} of {of}", "formules : {reached} sur {of}"),
    "coverage.of.branch": ("branches: {reached} of {of}", "branches : {reached} sur {of}"),
    "coverage.of.bound": ("bounds: {reached} of {of}", "bornes : {reached} sur {of}"),
    "coverage.of.cell": ("cells: {reached} of {of}", "cellules : {reached} sur {of}"),
    "coverage.of.verification": ("verifications: {reached} of {of}", "vérifications : {reached} sur {of}"),
    "coverage.of.command": ("commands: {reached} of {of}", "commandes du pilote : {reached} sur {of}"),
    "coverage.all": ("{households} cases reach {reached} of {of}: {percent} %", "{households} cas atteignent {reached} sur {of} : {percent} %"),
    "coverage.title": ("Coverage of {list}", "Couverture de {list}"),
    "coverage.kind": ("What", "Nature"),
    "coverage.reached": ("Reached", "Atteint"),
    "coverage.count": ("Of", "Sur"),
    "coverage.percent": ("Percent", "Pourcentage"),
    "coverage.kind.formula": ("Formulas", "Formules"),
    "coverage.kind.branch": ("Branches", "Branches"),
    "coverage.kind.bound": ("Bounds of max and min", "Bornes de max et min"),
    "coverage.kind.cell": ("Cells of tables", "Cellules de tableaux"),
    "coverage.kind.verification": ("Verifications", "Vérifications"),
    "coverage.kind.command": ("Commands of the driver", "Commandes du pilote"),
    "coverage.kind.all": ("All", "Total"),
    "coverage.by": ("Cases: {tables}", "Cas : {tables}"),
    "coverage.missing": ("What no case reaches", "Ce qu'aucun cas n'atteint"),
    "coverage.nothing": ("Every point is reached.", "Tout est atteint."),
    "coverage.rate": ("{percent} %", "{percent} %"),
    "coverage.legend": (
        "A line is marked + where all of it is reached, ~ where a part is, and - where nothing is. What no case reaches is underlined.",
        "Une ligne porte + si tout y est atteint, ~ si une partie l'est, - si rien ne l'est. Ce qu'aucun cas n'atteint est souligné."),
    "new.words": ("words: new FOLDER [--lang en|fr]; see --help", "usage : new DOSSIER [--lang en|fr] ; voir --help"),
    "new.exists": ("{folder} isn't empty: name a new folder", "{folder} n'est pas vide : nommez un nouveau dossier"),
    "new.made": ("{folder} has a rule base: its README.md says how to run it", "{folder} contient une base de règles : son README.md dit comment l'exécuter"),
    "new.title": ("A rule base in M", "Une base de règles en M"),
    "new.readme": (
        "A tax with two brackets, an allowance for children and a reduction for gifts. Put your own rules in its place. Start these commands in this folder:",
        "Un impôt à deux tranches, un abattement par enfant et une réduction pour dons. Remplacez-les par les vôtres. Lancez ces commandes dans ce dossier :"),
    "new.heading": ("A tax to begin with.", "Un impôt pour commencer."),
    "new.replace": ("Save files as UTF-8 or Latin-1, without a byte order mark.",
                    "Enregistrez les fichiers en UTF-8 ou en Latin-1, sans marque d'ordre des octets."),
    "new.wages": ("wages", "salaires déclarés"),
    "new.children": ("number of children", "nombre d'enfants à charge"),
    "new.gifts": ("gifts", "dons"),
    "new.deduction": ("deduction for expenses, of wages", "déduction forfaitaire pour frais"),
    "new.allowance": ("allowance for each child", "abattement par enfant"),
    "new.gift_rate": ("what a gift takes off the tax", "taux de la réduction pour dons"),
    "new.thresholds": ("thresholds of the scale", "seuils du barème"),
    "new.rates": ("what each bracket adds to the rate", "ce que chaque tranche ajoute au taux"),
    "new.net": ("net income", "revenu net"),
    "new.gross": ("tax before reductions", "impôt brut"),
    "new.reduction": ("reduction for gifts", "réduction pour dons"),
    "new.tax": ("tax", "impôt"),
    "new.without": ("tax without the gifts", "impôt sans les dons"),
    "new.gain": ("what the gifts save", "économie due aux dons"),
    "new.more": ("30 % above 30,000", "30 % au-dessus de 30 000"),
    "new.negative": ("an amount is below 0", "un montant est négatif"),
    "new.limited": ("the reduction for gifts is limited to the tax", "la réduction pour dons est limitée à l'impôt"),
    "new.driver": ("The tax with the gifts and without them.", "L'impôt avec les dons et sans eux."),
    "new.check": ("The check of this rule base: what is no fault but never meant, the cases, and that they reach all of it.",
                  "Le contrôle de cette base : les étourderies, les cas, et leur couverture, qui doit être complète."),
    "new.gitlab": ("The image must have m_tax and vodmejka.", "L'image doit contenir m_tax et vodmejka."),
    "doc.words": (
        "words: doc LIST [DRIVER] --into FOLDER [--title TEXT] [--articles PATTERN=URL].. [--lang en|fr] [--here]; see --help",
        "usage : doc LISTE [PILOTE] --into DOSSIER [--title TEXTE] [--articles MOTIF=URL].. [--lang en|fr] [--here] ; voir --help"),
    "doc.exists": ("{folder} is no earlier reference and isn't empty: name a new folder",
                   "{folder} n'est pas une référence antérieure et n'est pas vide : nommez un nouveau dossier"),
    "doc.pattern": ("--articles takes PATTERN=URL, a regular expression and an address with http:// or https://, and not {text}",
                    "--articles attend MOTIF=URL, une expression régulière et une adresse en http:// ou https://, et non {text}"),
    "doc.made": ("{folder}: {count} pages", "{folder} : {count} pages"),
    "doc.mark": ("vodmejka doc made this folder, and replaces it.", "vodmejka doc a écrit ce dossier et le remplace."),
    "doc.inputs": ("Inputs", "Variables saisies"),
    "doc.returned": ("Returned", "Variables restituées"),
    "doc.computed": ("Computed", "Variables calculées"),
    "doc.constants": ("Constants", "Constantes"),
    "doc.tables": ("Tables", "Tableaux"),
    "doc.verifications": ("Verifications", "Vérifications"),
    "doc.verification": ("Verification {number}", "Vérification {number}"),
    "doc.errors": ("Errors that no verification raises", "Erreurs qu'aucune vérification ne lève"),
    "doc.error.anomalie": ("anomaly: it stops the run", "anomalie : elle arrête le calcul"),
    "doc.error.discordance": ("discordance: it is noted", "discordance : elle est signalée"),
    "doc.error.informative": ("information: it is noted", "information : elle est signalée"),
    "doc.driver": ("Driver", "Pilote"),
    "doc.sources": ("Sources", "Fichiers"),
    "doc.application": ("Rules of the application {application}", "Règles de l'application {application}"),
    "doc.search": ("Search a name, a code or a description", "Chercher un nom, un code ou un libellé"),
    "doc.none": ("Nothing matches.", "Aucun résultat."),
    "doc.no_one": ("There are none.", "Il n'y en a pas."),
    "doc.what": ("What", "Nature"),
    "doc.count": ("Number", "Nombre"),
    "doc.name": ("Name", "Nom"),
    "doc.value": ("Value", "Valeur"),
    "doc.code": ("Code", "Code"),
    "doc.description": ("Description", "Libellé"),
    "doc.kind": ("Kind", "Nature"),
    "doc.kind.saisie": ("input", "variable saisie"),
    "doc.kind.calculee": ("computed", "variable calculée"),
    "doc.kind.const": ("constant", "constante"),
    "doc.type": ("Type", "Type"),
    "doc.cells": ("Cells", "Cellules"),
    "doc.attributes": ("Attributes", "Attributs"),
    "doc.declared": ("Declared", "Déclaration"),
    "doc.place": ("{file} line {line}", "{file} ligne {line}"),
    "doc.line": ("line {line}", "ligne {line}"),
    "doc.formula": ("Formula", "Formule"),
    "doc.rule": ("rule {number}", "règle {number}"),
    "doc.unset": ("No rule of this application sets it.", "Aucune règle de cette application ne la calcule."),
    "doc.unread": ("Nothing reads it.", "Rien ne la lit."),
    "doc.reads": ("Reads", "Lit"),
    "doc.readers": ("Read by", "Lue par"),
    "doc.rests": ("What it rests on", "Ce dont elle dépend"),
    "doc.more": ("and {count} more", "et {count} de plus"),
    "doc.picture": ("What {name} rests on", "Ce dont {name} dépend"),
}


class Language:
    """The language of the messages."""

    name = ENGLISH


def language_of(words: list[str]) -> list[str]:
    """Takes `--lang LANGUAGE` out of the words of a command, or the machine's language; the words that are left."""
    left = list(words)
    told = next((os.environ[name] for name in ("LC_ALL", "LC_MESSAGES", "LANG") if os.environ.get(name)), "")
    Language.name = FRENCH if told.lower().startswith("fr") else ENGLISH
    if "--lang" in left and left.index("--lang") + 1 < len(left) and left[left.index("--lang") + 1] in (ENGLISH, FRENCH):
        at = left.index("--lang")
        Language.name = left[at + 1]
        del left[at : at + 2]
    return left


def said(key: str, **values: object) -> str:
    """The sentence with this key, in the language that was chosen."""
    english, french = TEXTS[key]
    return (french if Language.name == FRENCH else english).format(**values)


def phrase(english: str) -> str:
    """A phrase in the language that was chosen; what is none, as a sign, as it is."""
    return said("phrase." + english) if "phrase." + english in TEXTS else english


def numeral(text: str) -> str:
    """A number with commas between thousands and a point before decimals, as it is written in the language that was chosen."""
    return text.replace(",", "\u202f").replace(".", ",") if Language.name == FRENCH else text


def decimal_sign() -> str:
    """The sign before decimals."""
    return "," if Language.name == FRENCH else "."
