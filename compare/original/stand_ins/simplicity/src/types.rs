//! Stands in for the types and their inference. What can't be seen here:
//! unification, which always succeeds.

use std::cell::RefCell;
use std::collections::HashMap;
use std::fmt;
use std::hash::{Hash, Hasher};
use std::marker::PhantomData;
use std::rc::Rc;
use std::sync::Arc;

use crate::log::Log;
use crate::Entry;

/// Nothing is ever refused here.
#[derive(Clone, Debug)]
pub enum Error {}

#[derive(Debug)]
pub enum CompleteBound {
    Unit,
    Sum(Arc<Final>, Arc<Final>),
    Product(Arc<Final>, Arc<Final>),
}

/// A whole type, made once for each shape, so that its number is its identity
/// and no comparison walks a tree that may be shared beyond counting.
#[derive(Debug)]
pub struct Final {
    number: usize,
    bound: CompleteBound,
}

#[derive(Clone, Copy, PartialEq, Eq, Hash)]
enum Shape {
    Unit,
    Sum(usize, usize),
    Product(usize, usize),
}

thread_local! {
    static KNOWN: RefCell<HashMap<Shape, Arc<Final>>> = RefCell::new(HashMap::new());
}

impl Final {
    fn known(shape: Shape, bound: CompleteBound) -> Arc<Final> {
        KNOWN.with_borrow_mut(|known| {
            let number = known.len();
            let made = || Arc::new(Final { number, bound });
            Arc::clone(known.entry(shape).or_insert_with(made))
        })
    }

    pub fn unit() -> Arc<Final> {
        Self::known(Shape::Unit, CompleteBound::Unit)
    }

    pub fn sum(left: Arc<Final>, right: Arc<Final>) -> Arc<Final> {
        let shape = Shape::Sum(left.number, right.number);
        Self::known(shape, CompleteBound::Sum(left, right))
    }

    pub fn product(left: Arc<Final>, right: Arc<Final>) -> Arc<Final> {
        let shape = Shape::Product(left.number, right.number);
        Self::known(shape, CompleteBound::Product(left, right))
    }

    /// The words of two to the n bits.
    pub fn two_two_n_fixed<const N: usize>() -> Arc<Final> {
        let bit = Self::sum(Self::unit(), Self::unit());
        (0..N).fold(bit, |word, _| Self::product(Arc::clone(&word), word))
    }

    pub fn bound(&self) -> &CompleteBound {
        &self.bound
    }
}

impl PartialEq for Final {
    fn eq(&self, other: &Final) -> bool {
        self.number == other.number
    }
}

impl Eq for Final {}

impl Hash for Final {
    fn hash<H: Hasher>(&self, state: &mut H) {
        self.number.hash(state);
    }
}

impl fmt::Display for Final {
    fn fmt(&self, f: &mut fmt::Formatter<'_>) -> fmt::Result {
        write!(f, "type {}", self.number)
    }
}

#[derive(Debug)]
enum Handle {
    /// What the node at this place of the log gives.
    Target(usize),
    Complete(Arc<Final>),
}

#[derive(Debug)]
pub struct Type<'brand> {
    handle: Handle,
    brand: PhantomData<&'brand ()>,
}

impl<'brand> Type<'brand> {
    fn new(handle: Handle) -> Type<'brand> {
        Type {
            handle,
            brand: PhantomData,
        }
    }

    pub(crate) fn target(place: usize) -> Type<'brand> {
        Self::new(Handle::Target(place))
    }

    pub fn complete(_: &Context<'brand>, ty: Arc<Final>) -> Type<'brand> {
        Self::new(Handle::Complete(ty))
    }
}

/// Holds the log that all nodes of one lowering are written into.
#[derive(Debug)]
pub struct Context<'brand> {
    log: Rc<RefCell<Log>>,
    brand: PhantomData<&'brand ()>,
}

impl<'brand> Context<'brand> {
    pub fn with_context<R>(body: impl FnOnce(Context<'_>) -> R) -> R {
        body(Context {
            log: Rc::new(RefCell::new(Log::begin())),
            brand: PhantomData,
        })
    }

    pub fn shallow_clone(&self) -> Context<'brand> {
        Context {
            log: Rc::clone(&self.log),
            brand: PhantomData,
        }
    }

    pub fn unify(&self, one: &Type<'brand>, two: &Type<'brand>, _: &str) -> Result<(), Error> {
        if let (Handle::Target(place), Handle::Complete(ty)) = (&one.handle, &two.handle) {
            self.log.borrow_mut().note(*place, ty);
        }
        Ok(())
    }

    pub(crate) fn push(&self, entry: Entry) -> usize {
        self.log.borrow_mut().push(entry)
    }

    pub(crate) fn take(&self) -> Vec<Entry> {
        self.log.borrow_mut().take()
    }
}
