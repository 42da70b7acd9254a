//! What a type derives, as bounds that it has to meet.

use std::fmt::Debug;
use std::hash::Hash;
use tabled_grid::Keep;

/// Compared, ordered and hashed.
pub(crate) fn is_value<T: Debug + PartialEq + Eq + PartialOrd + Ord + Hash>() {}

/// Compared and ordered.
pub(crate) fn is_ordered<T: Debug + PartialEq + Eq + PartialOrd + Ord>() {}

/// Compared.
pub(crate) fn is_equated<T: Debug + PartialEq + Eq>() {}

/// Copied where it stands.
pub(crate) fn is_copied<T: Debug + Clone + Copy>() {}

/// Copied by a call that may be refused memory.
pub(crate) fn is_kept<T: Debug + Keep>() {}

/// There by default.
pub(crate) fn is_made_of_nothing<T: Debug + Default>() {}
