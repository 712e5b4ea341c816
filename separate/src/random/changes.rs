//! Single changes, most of which change what a program computes.

use super::rewrites::at_item;
use super::Random;
use crate::tables::{arity, MARKED};
use crate::tree::{
    each_form, each_loop, each_node, each_statement, Expression, Form, Item, Source, Use,
};

/// One change of a random kind, if the program has a place for it.
pub fn change(source: &Source, random: &mut Random) -> Option<Source> {
    let mut source = source.clone();
    let changed = match random.below(15) {
        0 | 1 => change_operator(&mut source, random),
        2 | 3 => change_arguments(&mut source, random),
        4 | 5 => change_form(&mut source, random, &[Use::Subscript]),
        6 => change_form(&mut source, random, &[Use::Start, Use::Stop]),
        7 => change_step(&mut source, random),
        8 => change_form(&mut source, random, &[Use::Literal]),
        9 => change_form(&mut source, random, &[Use::Guard]),
        10 => change_name(&mut source, random),
        11..=13 => regroup(&mut source, random),
        _ => change_target(&mut source, random),
    };
    (changed && source.fits()).then_some(source)
}

/// One change that may leave elements unwritten: an item is missing, or a bound
/// or guard is another.
pub fn leave_out(source: &Source, random: &mut Random) -> Option<Source> {
    if random.chance(60) {
        return at_item(source, random, &|_| true, |_, _, _| Some(Vec::new()));
    }
    let mut source = source.clone();
    let changed = change_form(&mut source, random, &[Use::Start, Use::Stop, Use::Guard]);
    (changed && source.fits()).then_some(source)
}

/// Acts on one of the nodes that are wanted.
fn at_node(
    items: &mut [Item],
    random: &mut Random,
    wanted: &dyn Fn(&Expression) -> bool,
    act: &mut dyn FnMut(&mut Expression, &mut Random),
) -> bool {
    let mut count = 0;
    each_node(items, &mut |node| count += usize::from(wanted(node)));
    if count == 0 {
        return false;
    }
    let chosen = random.below(count);
    let mut at = 0;
    each_node(items, &mut |node| {
        if wanted(node) {
            if at == chosen {
                act(node, random);
            }
            at += 1;
        }
    });
    true
}

/// Another operator of the same arity.
fn change_operator(source: &mut Source, random: &mut Random) -> bool {
    let arities: Vec<_> = source.operators.iter().map(|&operator| arity(operator)).collect();
    let others = |number: usize| -> Vec<usize> {
        let alike = |&other: &usize| other != number && arities[other] == arities[number];
        (0..arities.len()).filter(alike).collect()
    };
    let wanted = |node: &Expression| match node {
        Expression::Operator { number, .. } => !others(*number).is_empty(),
        _ => false,
    };
    at_node(&mut source.items, random, &wanted, &mut |node, random| {
        if let Expression::Operator { number, .. } = node {
            *number = *random.pick(&others(*number));
        }
    })
}

/// Two arguments of an operator without a mark change places.
fn change_arguments(source: &mut Source, random: &mut Random) -> bool {
    let operators = source.operators.clone();
    let wanted = |node: &Expression| match node {
        Expression::Operator { number, arguments } => {
            operators[*number] != MARKED && arguments.windows(2).any(|two| two[0] != two[1])
        }
        _ => false,
    };
    at_node(&mut source.items, random, &wanted, &mut |node, random| {
        if let Expression::Operator { arguments, .. } = node {
            let one = random.below(arguments.len());
            let other = random.below(arguments.len());
            arguments.swap(one, other);
        }
    })
}

/// f(f(a, b), c) becomes f(a, f(b, c)), or the other way round.
fn regroup(source: &mut Source, random: &mut Random) -> bool {
    let wanted = |node: &Expression| regrouped(node).is_some();
    at_node(&mut source.items, random, &wanted, &mut |node, _| {
        if let Some(other) = regrouped(node) {
            *node = other;
        }
    })
}

fn regrouped(node: &Expression) -> Option<Expression> {
    let Expression::Operator { number, arguments } = node else { return None };
    let [first, second] = arguments.as_slice() else { return None };
    let parts = |node: &Expression| match node {
        Expression::Operator { number: inner, arguments } if inner == number => {
            Some([arguments[0].clone(), arguments[1].clone()])
        }
        _ => None,
    };
    let join = |one, other| Expression::Operator { number: *number, arguments: vec![one, other] };
    if let Some([one, other]) = parts(first) {
        return Some(join(one, join(other, second.clone())));
    }
    let [one, other] = parts(second)?;
    Some(join(join(first.clone(), one), other))
}

/// A form of one of these uses gets another constant or coefficient.
pub fn change_form(source: &mut Source, random: &mut Random, uses: &[Use]) -> bool {
    let mut count = 0;
    each_form(&mut source.items, &mut |found, _| count += usize::from(uses.contains(&found)));
    if count == 0 {
        return false;
    }
    let chosen = random.below(count);
    let mut at = 0;
    each_form(&mut source.items, &mut |found, form| {
        if uses.contains(&found) {
            if at == chosen {
                nudge(form, random);
            }
            at += 1;
        }
    });
    true
}

fn nudge(form: &mut Form, random: &mut Random) {
    let by = *random.pick(&[1, -1, 1, -1, 2, -2]);
    if form.coefficients.is_empty() || random.chance(50) {
        form.constant += by;
    } else {
        let position = random.below(form.coefficients.len());
        form.coefficients[position] += by;
    }
}

fn change_step(source: &mut Source, random: &mut Random) -> bool {
    let mut count = 0;
    each_loop(&mut source.items, &mut |_| count += 1);
    if count == 0 {
        return false;
    }
    let chosen = random.below(count);
    let mut at = 0;
    each_loop(&mut source.items, &mut |item| {
        if at == chosen {
            let steps = [-item.step, item.step * 2, item.step + item.step.signum()];
            item.step = *random.pick(&steps);
        }
        at += 1;
    });
    true
}

fn change_name(source: &mut Source, random: &mut Random) -> bool {
    let wanted = |node: &Expression| matches!(node, Expression::Constant(_));
    at_node(&mut source.items, random, &wanted, &mut |node, random| {
        if let Expression::Constant(name) = node {
            *name ^= 1 << random.below(32);
        }
    })
}

/// A statement writes another array of the same dimensions.
fn change_target(source: &mut Source, random: &mut Random) -> bool {
    let arrays = source.arrays.clone();
    let mut count = 0;
    each_statement(&mut source.items, &mut |_| count += 1);
    if count == 0 {
        return false;
    }
    let chosen = random.below(count);
    let mut at = 0;
    each_statement(&mut source.items, &mut |statement| {
        if at == chosen {
            let dimensions = statement.subscripts.len();
            let alike: Vec<_> =
                (0..arrays.len()).filter(|&a| arrays[a].extents.len() == dimensions).collect();
            statement.target = *random.pick(&alike);
        }
        at += 1;
    });
    true
}

#[cfg(test)]
mod tests {
    use super::*;

    #[test]
    fn regrouping_keeps_the_order_of_the_parts() {
        let leaf = |name: u32| Expression::Constant(name);
        let join = |number: usize, one: Expression, other: Expression| Expression::Operator {
            number,
            arguments: vec![one, other],
        };
        let left = join(0, join(0, leaf(1), leaf(2)), leaf(3));
        let right = join(0, leaf(1), join(0, leaf(2), leaf(3)));
        assert_eq!(regrouped(&left), Some(right.clone()));
        assert_eq!(regrouped(&right), Some(left));
        // Not across operators, and not without a sum within.
        assert_eq!(regrouped(&join(0, join(1, leaf(1), leaf(2)), leaf(3))), None);
        assert_eq!(regrouped(&join(0, leaf(1), leaf(2))), None);
    }
}
