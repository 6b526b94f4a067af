"""What `reform` and `marginal` say, with their pages and pictures, in English and French. Their csv files are the same in both languages."""

TEXTS = {
    "reform.none": ("{table} has no household", "{table} n'a aucun foyer"),
    "reform.no_number": ("no household has a number for {name}", "aucun foyer n'a de valeur pour {name}"),
    "reform.there": ("{folder} is there already", "{folder} existe déjà"),
    "reform.unwritable": ("unwritable {folder}", "écriture impossible dans {folder}"),
    "reform.households": (
        "{count} households, {stopped} stopped; {name}: {before} before, {after} after",
        "{count} foyers, {stopped} arrêtés ; {name} : {before} avant, {after} après"),
    "reform.winners": (
        "winners {winners}, losers {losers}, unchanged {unchanged}; see {folder}/report.html",
        "gagnants {winners}, perdants {losers}, inchangés {unchanged} ; voir {folder}/report.html"),
    "reform.taken": (
        "less of {name} is taken for a gain, since neither --less-is-gain nor --more-is-gain is given",
        "une baisse de {name} compte comme un gain, puisque ni --less-is-gain ni --more-is-gain n'est donné"),
    "reform.title": ("What the reform does", "Les effets de la réforme"),
    "reform.title_of": ("What the reform does to {name}", "Les effets de la réforme sur {name}"),
    "reform.before_after": (
        "Before: {before}. After: {after}. Table: {table}, {count} households of the weight {weight}; {stopped} of them stop.",
        "Avant : {before}. Après : {after}. Table : {table}, {count} foyers, de poids total {weight} ; {stopped} sont arrêtés."),
    "reform.sums": (
        "{name} is {before} before and {after} after, a difference of {difference}. {gain}",
        "{name} est de {before} avant et de {after} après, soit une différence de {difference}. {gain}"),
    "reform.more_gain": ("More of it is a gain.", "Une hausse est un gain."),
    "reform.less_gain": ("Less of it is a gain.", "Une baisse est un gain."),
    "reform.less_taken": (
        "Less of it is a gain: neither --less-is-gain nor --more-is-gain was given.",
        "Une baisse est un gain : ni --less-is-gain ni --more-is-gain n'a été donné."),
    "reform.who": ("Who gains and who loses", "Qui gagne et qui perd"),
    "reform.who_more": (
        "The share of households, by the gain of each. Above 0 a household gains: it has so much more of {name} after the reform. Below 0 it loses. "
        "The gain is the difference, which is after less before.",
        "La part des foyers, selon le gain de chacun. Au-dessus de 0, un foyer gagne : il a d'autant plus de {name} après la réforme. "
        "Au-dessous de 0, il perd. Le gain est la différence, soit après moins avant."),
    "reform.who_less": (
        "The share of households, by the gain of each. Above 0 a household gains: it has so much less of {name} after the reform. Below 0 it loses. "
        "The gain is the difference with the other sign, which is after less before.",
        "La part des foyers, selon le gain de chacun. Au-dessus de 0, un foyer gagne : il a d'autant moins de {name} après la réforme. "
        "Au-dessous de 0, il perd. Le gain est l'opposé de la différence, soit après moins avant."),
    "reform.tenths": ("The gain by tenth of {name}", "Le gain par dixième de {name}"),
    "reform.mean_gain": ("The mean gain of a household of each tenth.", "Le gain moyen d'un foyer de chaque dixième."),
    "reform.rates": ("Marginal rates", "Taux marginaux"),
    "reform.rates_told": (
        "The share of households by what {amount} more of {code} adds, before (blue) and after.",
        "La part des foyers selon ce qu'ajoutent {amount} de plus de {code}, avant (bleu) et après."),
    "reform.figures": ("The figures", "Les chiffres"),
    "reform.digests": (
        "Rules before {before}; rules after {after}; program m_survey {program}.",
        "Règles d'avant {before} ; règles d'après {after} ; programme m_survey {program}."),
    "reform.all": ("all", "tous"),
    "reform.tenth": ("tenth {number}", "dixième {number}"),
    "reform.no_value": ("no {name}", "sans {name}"),
    "reform.less": ("less", "moins"),
    "reform.more": ("more", "plus"),
    "reform.head.group": ("group", "groupe"),
    "reform.head.households": ("households", "foyers"),
    "reform.head.weight": ("weight", "poids"),
    "reform.head.before": ("before", "avant"),
    "reform.head.after": ("after", "après"),
    "reform.head.difference": ("difference", "différence"),
    "reform.head.mean difference": ("mean difference", "différence moyenne"),
    "reform.head.winners": ("winners", "gagnants"),
    "reform.head.losers": ("losers", "perdants"),
    "reform.head.unchanged": ("unchanged", "inchangés"),
    "reform.head.stopped": ("stopped", "arrêtés"),
    "reform.head.a gain is": ("a gain is", "un gain est"),
    "marginal.no_amount": ("{what} is no amount: {text}", "{what} n'est pas un montant : {text}"),
    "marginal.no_household": (
        "{path} is no household: its first line is code,amount, and each other has two fields",
        "{path} n'est pas un foyer : sa première ligne est code,amount, et chacune des suivantes a deux champs"),
    "marginal.twice": ("{path}: the code {code} stands twice", "{path} : le code {code} figure deux fois"),
    "marginal.code": ("{code}: unknown code", "{code} : code inconnu"),
    "marginal.gaps": ("{gaps} of {count} amounts have no number", "{gaps} montants sur {count} n'ont pas de valeur"),
    "marginal.no_rate": ("no amount has a rate", "aucun montant n'a de taux"),
    "marginal.step": ("STEP is above 0, and TO is above FROM", "STEP est supérieur à 0, et TO est supérieur à FROM"),
    "marginal.net": ("NET has no value of the rules", "NET ne cite aucune valeur des règles"),
    "marginal.by": ("{name} by {rules}", "{name} selon {rules}"),
    "marginal.of": ("{name} of {household}", "{name} pour {household}"),
    "marginal.legend": (
        "{name}: marginal rate, and (dashes) mean rate, which is {of} divided by {code}",
        "{name} : taux marginal, et (tirets) taux moyen, soit {of} divisé par {code}"),
}
