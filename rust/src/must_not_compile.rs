//! What a host may not write. Each of these is tried, and must be refused by the compiler.

/// An answer that is dropped.
///
/// ```compile_fail
/// #![deny(unused_must_use)]
/// yokeglimmer::run(&mut yokeglimmer::State::new(0), &mut [], 0, yokeglimmer::Mode::Plain);
/// ```
///
/// ```compile_fail
/// #![deny(unused_must_use)]
/// use yokeglimmer::{step, Checks, Mode, State};
/// step(&mut State::new(0), &mut [], Mode::Plain, &mut Checks::none());
/// ```
pub struct Dropped;

/// A match that leaves no room for the stops and refusals of later versions.
///
/// ```compile_fail
/// use yokeglimmer::Stop;
/// fn told(stop: Stop) -> bool {
///     match stop {
///         Stop::Fuel | Stop::Ebreak | Stop::Ecall => true,
///         Stop::Refused(_) => false,
///     }
/// }
/// ```
///
/// ```compile_fail
/// use yokeglimmer::Refusal::{self, *};
/// fn is_first(refusal: Refusal) -> bool {
///     match refusal {
///         DivisorZero { .. } => true,
///         Beyond { .. } | Misaligned { .. } | BadOpcode { .. } | UnusedBits { .. } => false,
///         PcMisaligned { .. } | PcBeyond { .. } | ListFull { .. } | Malformed => false,
///         BadLine { .. } | BadImage => false,
///     }
/// }
/// ```
pub struct Exhausted;

/// Bytes of another length than a state's, where the length is known.
///
/// ```compile_fail
/// yokeglimmer::State::try_from([0; 399]);
/// ```
pub struct Short;
