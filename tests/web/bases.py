"""Rule bases for pages: with hostile texts, with many inputs, with many rules."""

HOSTILE = "<script>window.broken = 3</script> \"' & </script><!-- <b>é</b> ${window.broken = 4} {{data}} \\u003c"


def put(room, name, text, driver=None):
    """Writes a rule base, and answers the words of `page` for it."""
    rules, listed = room / f"{name}.m", room / f"{name}.list"
    rules.write_bytes(text.encode("latin-1"))
    listed.write_text(f"iliad\n{rules}\n")
    if driver is None:
        return [str(listed), "-"]
    (room / f"{name}.mpp").write_bytes(driver.encode("latin-1"))
    return [str(listed), str(room / f"{name}.mpp")]


def hostile(room, _count=0):
    """Texts that look like markup, in descriptions, comments, errors, the driver and names of files."""
    text = HOSTILE.replace('"', "''")
    rules = f"""# {text}
A : saisie contexte alias 1AA : "{text}" type REEL ;  # {text}
B : calculee restituee : "{text}" ;
D : calculee restituee : "{text}" ;
E1 : informative : "A" : "1" : "0" : "{text}" : "N" ;
regle 1 : application : iliad ;
B = si A < 0 ou A non dans (-1, 3..5) alors A + 1 sinon - A finsi ;  # {text}
verif 1 : application : iliad ;
si A > 1 alors erreur E1 ;
"""
    words = put(room, "a<b>'&", rules, f"main():  # {text}\n  B <- call_m()\n  D = B\n")
    return [*words, "--title", text], [text]


def many_inputs(room, count=10_000):
    """Inputs in groups, and their sum."""
    declared = [f'V{k} : saisie groupe{k % 20:02d} alias C{k} : "La case numéro {k} de la déclaration" ;' for k in range(count)]
    lines = [*declared, 'S : calculee restituee : "Somme" ;', "regle 1 : application : iliad ;", f"S = {' + '.join(f'V{k}' for k in range(count))} ;"]
    return put(room, "inputs", "\n".join(lines) + "\n"), ["Somme"]


def many_rules(room, count=20_000):
    """Rules in a chain of some width."""
    lines = ['A : saisie alias 1AA : "Un montant" ;', 'R0 : calculee : "Le premier" ;', "regle 1 : application : iliad ;", "R0 = A * 0.5 ;"]
    for k in range(1, count):
        end = "restituee " if k == count - 1 else ""
        lines += [f'R{k} : calculee {end}: "Le résultat de la règle {k}" ;', f"regle {k + 1} : application : iliad ;  # art. {k} du code",
                  f"R{k} = R{max(0, k - 1)} + min(R{k // 2}, {k}) ;"]
    return put(room, "rules", "\n".join(lines) + "\n"), [f"Le résultat de la règle {count - 1}"]
