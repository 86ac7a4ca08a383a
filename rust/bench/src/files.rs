//! The domain files that are timed.

use generate::domains::{Plan, PlanAction, FF};
use generate::literature::{Named, ROVERS};

/// The paper's M1.
pub fn m1() -> Vec<u8> {
    let mut plan = Plan { relations: vec![2, 2], ..Plan::default() };
    let (at, out) = (0, 1);
    plan.components = vec![(at, vec![0, FF]), (out, vec![0, FF])];
    plan.actions.push(PlanAction {
        variables: 3,
        lasting: false,
        literals: vec![(0, at, vec![0, 1]), (2, at, vec![0, 2]), (3, at, vec![0, 1])],
    });
    plan.actions.push(PlanAction {
        variables: 3,
        lasting: true,
        literals: vec![(0, at, vec![0, 1]), (3, at, vec![0, 1]), (8, out, vec![0, 2])],
    });
    plan.file()
}

// Roles: at the start, over all, at the end.
const START: u8 = 0;
const START_FALSE: u8 = 1;
const START_ADD: u8 = 2;
const START_DELETE: u8 = 3;
const OVER_ALL: u8 = 4;
const OVER_ALL_FALSE: u8 = 5;
const END_ADD: u8 = 8;
const END_DELETE: u8 = 9;

/// The template counts the places of a rover.
const PLACES: &str = "at[0,FF]";

/// The lasting Rovers domain of the planning competition: 25 relations, 9 actions.
pub fn rovers() -> Vec<u8> {
    Named::read(ROVERS).with(PLACES).file()
}

#[derive(Clone, Copy, PartialEq, Eq, Debug)]
pub enum Shape {
    /// Rovers' communicate_soil_data: 11 literals, 1 class.
    Communicate,
    /// 64 literals, each a class of its own.
    Classes,
    /// 64 literals in one class.
    OneClass,
    /// 63 literals in 21 classes that are journeys, and one literal more.
    Journeys,
    /// 64 literals, one of each relation.
    Relations,
}

/// So many actions of one shape. 64 actions of 64 literals, over 64 relations of arity 6 and 16
/// components, make 50,036 bytes: no well-formed file is longer.
pub fn dense(actions: usize, shape: Shape) -> Vec<u8> {
    let mut plan = Plan::default();
    match shape {
        Shape::Communicate => {
            let rovers = Named::read(ROVERS);
            plan = rovers.with(PLACES);
            let communicate = plan.actions.swap_remove(rovers.action("communicate_soil_data") as usize);
            plan.actions = vec![communicate; actions];
        }
        Shape::Classes | Shape::OneClass | Shape::Journeys | Shape::Relations => {
            plan.relations = vec![6; 64];
            // Five keys, in another order for each component.
            for component in 0..16u8 {
                let mut labels = vec![0, 1, 2, 3, 4, FF];
                labels.rotate_left(component as usize % 6);
                plan.components.push((4 * component, labels));
            }
            let action = match shape {
                Shape::Classes => classes,
                Shape::OneClass => one_class,
                Shape::Journeys => journeys,
                _ => relations,
            };
            plan.actions = (0..actions).map(action).collect();
        }
    }
    plan.file()
}

/// 64 actions at once of 64 literals each, to be tried: so many classes, up to 21 each with a true condition that is exchanged for
/// another fact, more each with a delete; and false conditions of a relation without a component. No answer is yes, so every set
/// is tried.
pub fn to_try(classes: usize) -> Vec<u8> {
    let mut plan = Plan { relations: vec![3, 3, 2], ..Plan::default() };
    plan.components = vec![(0, vec![0, 1, FF]), (1, vec![FF, 1, 0])];
    for number in 0..64u8 {
        let mut action = PlanAction::new(16, false);
        for class in 0..classes as u8 {
            action.push(START_DELETE, 0, vec![class % 16, class / 16, number % 16]);
            if classes <= 21 {
                action.push(START, 0, vec![class % 16, class / 16, number % 16]);
                action.push(START_ADD, 1, vec![number % 16, class / 16, class % 16]);
            }
        }
        for other in 0..=255u8 {
            action.push(START_FALSE, 2, vec![other % 16, other / 16]);
        }
        plan.actions.push(action);
    }
    plan.file()
}

/// So many actions at once, each with so many true conditions, up to 64, that are each a class of their own: every fact is weighed
/// for every class.
pub fn asked(actions: u8, conditions: u8) -> Vec<u8> {
    let mut plan = Plan { relations: vec![6], ..Plan::default() };
    plan.components = vec![(0, vec![0, 1, 2, 3, 4, FF])];
    for number in 0..actions {
        let mut action = PlanAction::new(16, false);
        for class in 0..conditions {
            action.push(START, 0, vec![0, 0, 0, class / 16, class % 16, number % 16]);
        }
        plan.actions.push(action);
    }
    plan.file()
}

/// 64 actions at once of 64 literals each, with three classes that add a fact and strike those of 16 components: of every component
/// every object is tried, against every literal.
pub fn struck() -> Vec<u8> {
    let mut plan = Plan { relations: vec![2; 17], ..Plan::default() };
    plan.components = (0..16).map(|relation| (relation, vec![0, FF])).collect();
    for _ in 0..64 {
        let mut action = PlanAction::new(16, false);
        for class in 0..3 {
            action.push(START_ADD, 0, vec![class, 15]);
            (0..16).for_each(|relation| action.push(START_DELETE, relation, vec![class, FF]));
        }
        (0..13).for_each(|other| action.push(START_FALSE, 16, vec![other, other]));
        plan.actions.push(action);
    }
    plan.file()
}

/// An atom with the variables of a class under the keys, in the order of its component.
fn atom(action: usize, component: usize, class: usize) -> (u8, Vec<u8>) {
    let (a, b) = (class as u8 % 16, class as u8 / 16);
    let mut variables = vec![15, a, 15, action as u8 % 16, b, 7];
    variables.rotate_left(component % 6);
    (4 * component as u8, variables)
}

/// Each literal a true condition or a delete of one relation, so that each stands alone.
fn classes(number: usize) -> PlanAction {
    let mut action = PlanAction::new(16, true);
    for class in 0..64 {
        let (relation, variables) = atom(number, number % 16, class);
        action.push([START, START_DELETE, OVER_ALL, END_DELETE][class % 4], relation, variables);
    }
    action
}

/// No true condition and no add, of four roles and every component's relation.
fn one_class(number: usize) -> PlanAction {
    let mut action = PlanAction::new(16, true);
    for component in 0..16 {
        for role in [START_FALSE, START_DELETE, OVER_ALL_FALSE, END_DELETE] {
            let (relation, variables) = atom(number, component, 0);
            action.push(role, relation, variables);
        }
    }
    action
}

fn journeys(number: usize) -> PlanAction {
    let mut action = PlanAction::new(16, true);
    for class in 0..21 {
        for (role, component) in [(START, class), (START_DELETE, class), (END_ADD, class + 5)] {
            let (relation, variables) = atom(number, component % 16, class);
            action.push(role, relation, variables);
        }
    }
    action.push(OVER_ALL, 1, vec![0, 1, 2, 3, 4, 5]);
    action
}

/// True conditions, deletes and adds by turns, each of a relation of its own.
fn relations(number: usize) -> PlanAction {
    let mut action = PlanAction::new(16, true);
    for relation in 0..63 {
        let variables = (0..6).map(|place| ((number + relation + place * place) % 16) as u8).collect();
        action.push([START, START_DELETE, END_ADD, END_DELETE][relation % 4], relation as u8, variables);
    }
    action.push(OVER_ALL, 63, vec![0, 1, 2, 3, 4, 5]);
    action
}

#[cfg(test)]
mod tests {
    use super::*;

    fn judged(file: &[u8]) -> (u8, usize) {
        let answer = model::judge(file, &mut [0; 32_768], &mut [0; 520]);
        (answer.number, generate::room(file).0 / 4)
    }

    #[test]
    fn m1_is_the_papers() {
        let text =
            "0100010002 0100010002 020002000300 0400030000000001 0400030002000002 0400030003000001 020002000301 \
                    0400030000000001 0400030003000001 0400030008010002 03000400 0000FF 03000400 0100FF 00000500";
        let written: String = m1().iter().map(|byte| format!("{byte:02X}")).collect();
        assert_eq!(written, text.replace(' ', ""));
    }

    /// All are accepted, so that nothing is cut short, and have the moments that their names tell.
    #[test]
    fn all_are_accepted() {
        assert_eq!(judged(&m1()), (1, 3));
        assert_eq!(judged(&rovers()), (1, 16));
        for actions in [8, 16, 32, 64] {
            assert_eq!(judged(&dense(actions, Shape::Communicate)), (0, actions * 2));
            assert_eq!(judged(&dense(actions, Shape::Classes)), (0, actions * 64 * 2));
            assert_eq!(judged(&dense(actions, Shape::OneClass)), (0, actions * 2));
            assert_eq!(judged(&dense(actions, Shape::Journeys)), (1, actions * 21 * 2));
        }
        for classes in [1, 21, 64] {
            assert_eq!(judged(&to_try(classes)), (0, 64 * classes));
            let domain = model::read(&to_try(classes)).expect("a domain");
            assert!(domain.actions.iter().all(|action| action.literals.len() == 64));
            assert_eq!(model::trying::answers(&domain), vec![0; 64 * classes]);
        }
        for (file, actions, literals, classes) in
            [(asked(64, 64), 64, 64, 64), (asked(8, 64), 8, 64, 64), (asked(64, 8), 64, 8, 8), (struck(), 64, 64, 3)]
        {
            let domain = model::read(&file).expect("a domain");
            assert!(domain.actions.len() == actions && domain.actions.iter().all(|a| a.literals.len() == literals));
            assert_eq!(model::trying::answers(&domain), vec![0; actions * classes]);
        }
        assert_eq!(dense(64, Shape::Classes).len(), 50_036);
        assert_eq!(dense(64, Shape::OneClass).len(), 50_036);
        assert_eq!(dense(64, Shape::Journeys).len(), 50_036);
    }

    /// The list of the last shape has every template, accepted and refused ones.
    #[test]
    fn all_relations_are_listed() {
        let file = dense(64, Shape::Relations);
        let mut list = [0; 1_344];
        let served = model::templates(&file, &mut list);
        assert_eq!((served.number, served.first, file.len()), (0, 1_344, 50_036));
        let refused = list.chunks_exact(3).filter(|entry| entry[2] >= 40).count();
        assert!((50..400).contains(&refused), "{refused}");
    }
}
