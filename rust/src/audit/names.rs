//! Pins or ports before and now: which are gone, which are new, and which are called otherwise.

/// How names in order are others than before; the default: they are not.
#[derive(Debug, Clone, Default, PartialEq, Eq)]
pub struct Names {
    pub gone: Vec<String>,
    pub new: Vec<String>,
    /// A name that is gone and the new one that stands in its place; neither list has them.
    pub renamed: Vec<(String, String)>,
    /// Whether those that stay stand in another order.
    pub reordered: bool,
}

impl Names {
    /// From the names before to those now. Where as many are new as are gone between two that stay, they are renamed.
    ///
    /// ```
    /// # use unloop::audit::Names;
    /// let names = |list: &str| list.split(' ').map(str::to_string).collect::<Vec<String>>();
    /// let told = |before, now| Names::between(&names(before), &names(now)).in_words("pin");
    /// assert_eq!(told("mute k44", "mute k44 k48"), ["pin k48 is new"]);
    /// assert_eq!(told("mute k44", "k44"), ["pin mute is gone"]);
    /// assert_eq!(told("mute k44", "quiet k44 k48"), ["pin mute became quiet", "pin k48 is new"]);
    /// assert_eq!(told("a b", "b a"), ["the pins stand in another order"]);
    /// assert!(Names::between(&names("a b"), &names("a b")).are_same());
    /// ```
    pub fn between(before: &[String], now: &[String]) -> Names {
        let stay = |names: &[String], others: &[String]| -> Vec<String> {
            let names = names.iter();
            names
                .filter(|name| others.contains(name))
                .cloned()
                .collect()
        };
        let (stayed, stays) = (stay(before, now), stay(now, before));
        let mut names = Names {
            reordered: stayed != stays,
            ..Names::default()
        };
        let gaps = gaps(before, now).into_iter().zip(gaps(now, before));
        for (gone, new) in gaps {
            match gone.len() == new.len() && !names.reordered {
                true => names.renamed.extend(gone.into_iter().zip(new)),
                false => {
                    names.gone.extend(gone);
                    names.new.extend(new);
                }
            }
        }
        names
    }

    pub fn are_same(&self) -> bool {
        *self == Names::default()
    }

    /// In words, of names that are each a `what`.
    pub fn in_words(&self, what: &str) -> Vec<String> {
        let renamed = self.renamed.iter();
        let renamed = renamed.map(|(old, new)| format!("{what} {old} became {new}"));
        let gone = self
            .gone
            .iter()
            .map(|gone| format!("{what} {gone} is gone"));
        let new = self.new.iter().map(|new| format!("{what} {new} is new"));
        let order = format!("the {what}s stand in another order");
        let reordered = self.reordered.then_some(order);
        renamed.chain(gone).chain(new).chain(reordered).collect()
    }
}

/// The names that the others don't have, by how many of those that they have stand before them.
fn gaps(names: &[String], others: &[String]) -> Vec<Vec<String>> {
    let mut gaps = vec![Vec::new()];
    for name in names {
        match (others.contains(name), gaps.last_mut()) {
            (false, Some(gap)) => gap.push(name.clone()),
            _ => gaps.push(Vec::new()),
        }
    }
    gaps
}
