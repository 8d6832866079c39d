//! Nodes that share others.

use std::cell::RefCell;
use std::rc::{Rc, Weak};

use educe::Educe;

/// A node of a graph. A clone shares the children, so a label need not be `Clone`; the parent is not shown, which would
/// never end.
#[derive(Educe)]
#[educe(Debug, Clone, Default)]
pub struct Node<L> {
    pub label: Rc<L>,
    pub children: RefCell<Vec<Rc<Node<L>>>>,
    #[educe(Debug(ignore))]
    pub parent: RefCell<Weak<Node<L>>>,
}

/// A list that contains itself.
#[derive(Educe)]
#[educe(Debug, Clone, PartialEq, Eq, PartialOrd, Ord, Hash, Default)]
pub enum List<T> {
    #[educe(Default)]
    Empty,
    Link(T, Box<List<T>>),
}

impl<T> List<T> {
    /// The list with one more item in front.
    pub fn with(self, item: T) -> Self {
        List::Link(item, Box::new(self))
    }
}

#[cfg(test)]
mod tests {
    use super::*;

    fn family() -> Rc<Node<&'static str>> {
        let leaf = Rc::new(Node {
            label: Rc::new("leaf"),
            children: RefCell::default(),
            parent: RefCell::default(),
        });
        let children = RefCell::new(vec![Rc::clone(&leaf)]);
        let root = Rc::new(Node {
            label: Rc::new("root"),
            children,
            parent: RefCell::default(),
        });
        *leaf.parent.borrow_mut() = Rc::downgrade(&root);
        root
    }

    #[test]
    fn a_clone_shares_the_children() {
        let root = family();
        let copy = Node::clone(&root);
        assert!(Rc::ptr_eq(&copy.label, &root.label));
        assert!(Rc::ptr_eq(
            &copy.children.borrow()[0],
            &root.children.borrow()[0]
        ));
        copy.children.borrow_mut().clear();
        assert_eq!(root.children.borrow().len(), 1);
    }

    #[test]
    fn the_parent_is_not_shown() {
        let shown = format!("{:?}", family());
        let leaf = r#"Node { label: "leaf", children: RefCell { value: [] } }"#;
        assert_eq!(
            shown,
            format!(r#"Node {{ label: "root", children: RefCell {{ value: [{leaf}] }} }}"#)
        );
    }

    #[test]
    fn a_label_need_not_be_clone() {
        struct Label;
        let node = Node {
            label: Rc::new(Label),
            children: RefCell::default(),
            parent: RefCell::default(),
        };
        assert!(Rc::ptr_eq(&node.clone().label, &node.label));
    }

    #[test]
    fn lists_are_compared_item_by_item() {
        let list = |items: &[u8]| {
            items
                .iter()
                .rev()
                .fold(List::default(), |rest: List<u8>, item| rest.with(*item))
        };
        assert_eq!(list(&[1, 2]), list(&[1, 2]).clone());
        assert!(list(&[1]) < list(&[1, 2]));
        assert!(list(&[1, 2]) < list(&[2]));
    }
}
