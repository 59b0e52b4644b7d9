"""A subject of label 0 inserts a style and one of label 16 a measure under it; 0 deletes the style, and both list what they
see. 16 has the grade to a second measure told; 24 puts a version on top; and 0 is refused what is gone. `hosts/example.out` is
printed."""
from dossier import Group, Label, Measure, Path, Refused, Store

open_subject, house_subject, sealed_subject = map(Label.parse, ("open", "house", "sealed"))
style = Path.parse("10:0")
sleeve, wider = style.child(20, house_subject), style.child(21, house_subject)

store = Store()
store.insert(open_subject, style, Group())
store.insert(house_subject, sleeve, Measure(-150))
store.delete(open_subject, style)
print(store.view(open_subject), end="")
print(store.view(house_subject), end="")

store.insert(house_subject, wider, Measure(850))
grade = store.grade(house_subject, sleeve, wider, 3)
print(f"step {grade.step}, remainder {grade.remainder}")

store.insert(sealed_subject, style.child(20, sealed_subject), Measure(-140))
print(store.view(sealed_subject), end="")

try:
    store.delete(open_subject, style)
except Refused as refused:
    print(refused)
