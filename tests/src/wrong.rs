//! Programs that only look right: the rules once more, each time with one fault, to see whether the tests find it.

use shared::answer::{Answer, Refusal};
use std::fmt::Display;

/// Faults of one program that only looks right. They are printed with what they do.
pub trait Planted: Copy + Display + 'static {
    const ALL: &'static [Self];
}

macro_rules! faults {
    ($name:ident { $($fault:ident: $told:literal,)* }) => {
        #[derive(Clone, Copy, Debug, PartialEq, Eq)]
        pub enum $name {
            $($fault,)*
        }

        impl $crate::wrong::Planted for $name {
            const ALL: &'static [$name] = &[$($name::$fault,)*];
        }

        impl std::fmt::Display for $name {
            fn fmt(&self, f: &mut std::fmt::Formatter) -> std::fmt::Result {
                let told = match self {
                    $($name::$fault => $told,)*
                };
                write!(f, "{self:?} ({told})")
            }
        }
    };
}

mod blocking;
pub mod copy;
pub mod tick;
pub mod way;

/// The first refusal in this order whose numbers do not fit.
fn refuse(order: [Refusal; 3], fits: impl Fn(Refusal) -> bool) -> Answer<()> {
    order.into_iter().find(|&refusal| !fits(refusal)).map_or(Ok(()), Err)
}

faults! {
    Fault {
        SizeSixtyFive: "a field of 65 across is accepted",
        WallMarks: "every mark but 0 counts as a wall and none is refused",
        BayOnWall: "a bay on a wall is accepted",
        SameBayTwice: "a bay is compared with the one before it only",
        SeventeenBays: "seventeen bays are accepted",
        EventBeforeMemory: "the event is checked before memory",
        LongerLength: "257 squares left are accepted",
        MarkTwo: "a mark of 2 counts as moving",
        BehindUnchecked: "the square behind is not checked while the shuttle stands",
        UnneededChecked: "places that aren't needed are checked",
        LongerRoute: "a route of 257 squares is not refused",
        RouteOfOrdersOnly: "the route is checked for orders only",
        KindThree: "an event of kind 3 counts as an arrival",
        LetGoEarly: "the square behind is let go when the step is granted",
        HeldByEarlierOnly: "only shuttles of a smaller number are asked whether they hold the square",
        NextSquareOnly: "only the next square is looked at, not what is safe",
        OnePass: "safe is found by one pass over the shuttles in their order",
        RingsOfTwo: "rings of two are looked for in place of what is safe",
        RingsOfFour: "rings of up to four are looked for in place of what is safe",
        SafeBeforeStep: "all is tested for safety as it is before the step",
        BehindInSafety: "the square behind counts in safety",
        HomeInTheWay: "a shuttle that has run counts as in the way in its bay",
        OwnSquareInTheWay: "a shuttle's own square counts as in its way",
        NothingSafe: "nothing is ever found safe",
        NothingGranted: "no step is ever granted",
        StepWhileMoving: "a step is granted to a shuttle that moves",
        UnsafeStepWritten: "an unsafe step is answered with not, but written",
        BehindNotSetByStep: "a step leaves the number of the square behind as it was",
        LastPlaceOverwritten: "the last place of a shifted route is overwritten",
        AllPlacesShifted: "a step shifts the places that aren't needed too",
        NoRouteTaken: "no order is ever taken",
        OrderInEmptyHall: "an order waits until all others are home",
        OrderWhileMoving: "an order is taken while the shuttle moves",
        OrderOverRoute: "an order is taken while squares are left",
        BehindUnsetByOrder: "an order leaves the number of the square behind as it was",
        OrderClearsPlaces: "an order clears the places behind its route",
        OthersBay: "a route may pass another's bay",
        OwnBayBetween: "a route may pass the own bay",
        EndsOutside: "a route may end outside the bay",
        RowEnds: "the last square of a row is beside the first of the next",
        ThroughWalls: "a route may pass walls",
        BehindUnsetByArrival: "an arrival leaves the number of the square behind as it was",
        ArrivalOfStanding: "a shuttle that stands can arrive",
        StartClearsPlaces: "the start clears the places of routes",
    }
}
