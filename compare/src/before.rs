//! An earlier revision's proved engine, linked beside the present one under a name of its own. What is
//! safe about its calls is safe about the present one's (piermint.rs): that revision's piermint.h asks
//! no more.

use crate::bill::Billed;
use crate::piermint::bill_by;

bill_by!(before_piermint_bill);
