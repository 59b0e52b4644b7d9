//! A subject of label 0 inserts a style and a subject of label 16 a measure under it; 0 deletes the style, and 16 lists what he
//! sees: the style, marked as removed, above his measure. Then 16 asks for the even grade to a second measure, and a subject of
//! label 24 lists his version of the first, which is on top. At last a refusal, in words.

use dossier::{Error, Label, Level, Path, Store, Value};

fn main() -> Result<(), Error> {
    let [open, house, sealed] = [Level::Open, Level::House, Level::Sealed].map(|level| Label::new(level, &[]));
    let style = Path::root().child(10, open);
    let (sleeve, wider) = (style.child(20, house), style.child(21, house));

    let mut store = Store::empty();
    store.insert(open, &style, Value::Group)?;
    store.insert(house, &sleeve, Value::Measure(-150))?;
    store.delete(open, &style)?;
    print!("{}", store.view(open, &Path::root())?);
    print!("{}", store.view(house, &Path::root())?);

    store.insert(house, &wider, Value::Measure(850))?;
    let grade = store.grade(house, &sleeve, &wider, 3)?;
    println!("step {}, remainder {}", grade.step, grade.remainder);

    store.insert(sealed, &style.child(20, sealed), Value::Measure(-140))?;
    print!("{}", store.view(sealed, &Path::root())?);

    if let Err(refused) = store.delete(open, &style) {
        println!("{refused}");
    }
    Ok(())
}
