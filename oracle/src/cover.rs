//! The named branches of the rules. The model notes each one that a call meets; a run counts the calls that
//! met it, and fails where one that can be met was not.

use std::cell::Cell;

use crate::named::named;

named! {
    /// A branch of the rules.
    Branch,
    /// What each branch is.
    NAMES {
        RootZero: "square root: of a zero",
        RootSubnormal: "square root: of a subnormal number",
        RootNormal: "square root: of a normal number",
        RatioNoLength: "distance: a segment of length zero",
        RatioLow: "distance: a ratio held to 0",
        RatioHigh: "distance: a ratio held to 1",
        RatioInside: "distance: a ratio inside",
        Edge0: "distance, edges: column 0 is nearest",
        Edge1: "distance, edges: column 1 is nearest",
        Edge2: "distance, edges: column 2 is nearest",
        Edge3: "distance, edges: column 3 is nearest",
        EdgeInterior: "distance, edges: the interior places are nearest",
        EdgeNoDet: "distance, edges: det not above 0",
        EdgeSOutside: "distance, edges: s outside 0..1",
        EdgeROutside: "distance, edges: s inside, r outside 0..1",
        Face0: "distance, face: edge 0-1 is nearest",
        Face1: "distance, face: edge 1-2 is nearest",
        Face2: "distance, face: edge 2-0 is nearest",
        FaceInterior: "distance, face: the interior place is nearest",
        FaceNoDet: "distance, face: det not above 0",
        FaceVBelow: "distance, face: v below 0",
        FaceWBelow: "distance, face: v inside, w below 0",
        FaceSumAbove: "distance, face: v and w not below 0, their sum above 1",
        DistanceTie: "distance: a later candidate equal to the smallest, not taken",
        NormZero: "norm: zero",
        NormLater: "norm: not the first cross pair's",
        NormStands: "norm: below 2^-60, stands",
        NormRaised: "norm: raised",
        NormAtLeast: "norm: exactly 2^-60, raised",
        ScaleOnce: "scaling: one multiplication",
        ScaleSeveral: "scaling: 2 to 42 multiplications",
        ScaleMost: "scaling: 43 multiplications",
        ScaleExactlyEight: "scaling: f becomes exactly 8",
        ScaleByMoved: "scaling: a moved place is the largest entry",
        QuadraticNone: "quadratic: no real root",
        QuadraticDouble: "quadratic: a double root",
        QuadraticSumZero: "quadratic: c1 and the root of det are both 0",
        QuadraticInfinite: "quadratic: an infinite root",
        QuadraticSwapped: "quadratic: the roots change places",
        ConstantRoot: "roots, constant: root 0",
        ConstantNone: "roots, constant: none",
        LinearAtOne: "roots, linear: a root, t is 1",
        LinearBelow: "roots, linear: a root, t below 1, the fraction at most t",
        LinearAbove: "roots, linear: a root, t below 1, the fraction above t and below 1",
        LinearEnd: "roots, linear: a root, t below 1, the fraction is 1: the root is t",
        LinearNone: "roots, linear: none in 0..1",
        LinearBeyond: "roots, linear: none in 0..t, but one between t and 1",
        LinearBothZero: "roots, linear: both values zero",
        SquareNone: "roots, quadratic: none real",
        SquareFirst: "roots, quadratic: only the lower is in range",
        SquareSecond: "roots, quadratic: only the upper is in range",
        SquareBoth: "roots, quadratic: both are in range",
        SquareOutside: "roots, quadratic: neither is in range",
        CubicMonotone: "roots, cubic: one span, no turning point",
        CubicFirstSpan: "roots, cubic: the span before the first turning point",
        CubicMiddleSpan: "roots, cubic: the span between the turning points",
        CubicLastSpan: "roots, cubic: the span after the last turning point",
        CubicOne: "roots, cubic: one root",
        CubicTwo: "roots, cubic: two roots",
        CubicThree: "roots, cubic: three roots",
        CubicNone: "roots, cubic: none",
        CubicDescending: "roots, cubic: the answered roots do not ascend",
        SpanSameSide: "span: both values on one side",
        SpanPoint: "span: equal ends, value 0",
        SpanBothZero: "span: both values zero",
        SpanGuessOutside: "span: the starting guess lies outside 0..t",
        NewtonAtOnce: "Newton: the starting guess is near enough",
        NewtonStops: "Newton: near enough after some steps",
        NewtonAll: "Newton: all 20 steps",
        NewtonLow: "Newton: a step held to 0",
        NewtonHigh: "Newton: a step held to t",
        NewtonFlat: "Newton: slope 0, value not 0",
        NewtonNoSlope: "Newton: value 0 and slope 0",
        CoplanarAbove: "coplanar: a computed coefficient above 2^20",
        StartInside: "walk: starts below offset squared",
        StartAtOffset: "walk: starts exactly at offset squared",
        ThresholdBelowFirst: "walk: in the band, the threshold is the f32 just below the first squared distance",
        ThresholdPark: "walk: above park squared, the threshold is park squared",
        ThresholdBoth: "walk: one f32 above park squared, the threshold is both",
        AboveDipContact: "in the band, above dip: contact",
        AboveDipClear: "in the band, above dip: clear",
        AboveDipBudget: "in the band, above dip: budget",
        AtDipContact: "in the band, exactly at dip: contact",
        AtDipClear: "in the band, exactly at dip: clear",
        AtDipBudget: "in the band, exactly at dip: budget",
        BelowDipContact: "in the band, below dip: contact",
        BelowDipClear: "in the band, below dip: clear",
        BelowDipBudget: "in the band, below dip: budget",
        DipLeft: "in the band, at or below dip: budget at a time above 0",
        AtParkContact: "in the band, exactly at park squared: contact",
        AtParkClear: "in the band, exactly at park squared: clear",
        AtParkBudget: "in the band, exactly at park squared: budget",
        LowestContact: "in the band, one f32 above offset squared: contact",
        LowestClear: "in the band, one f32 above offset squared: clear",
        LowestBudget: "in the band, one f32 above offset squared: budget",
        NoBandContact: "above park squared, one f32 above offset squared: contact",
        NoBandClear: "above park squared, one f32 above offset squared: clear",
        NoBandBudget: "above park squared, one f32 above offset squared: budget",
        PlainOnly: "step: the plain one passes the limit, the directional is not tried",
        DirectionStopped: "step: a cross pair ends the directional loops with 0",
        DirectionNone: "step: no cross pair comes nearer",
        DirectionReceding: "step: a cross pair does not come nearer",
        DirectionHeld: "step: a quotient of 0, where projected is not above park",
        DirectionInfinite: "step: an infinite quotient, dropped",
        DirectionTaken: "step: the directional one is longer",
        PlainTaken: "step: the plain one is as long or longer",
        PlainBelowZero: "step: the plain one is below zero, the directional is taken",
        StepNoMove: "step: too small to move the time",
        ClearAtOnce: "walk: clear with no probe",
        ClearLater: "walk: clear after probes",
        ClearLast: "walk: clear after 4,096 probes",
        BudgetMoved: "walk: budget, the time still moving",
        BudgetStuck: "walk: budget, the time not moving",
        BudgetStuckLater: "walk: budget, the time not moving, above 0",
        ContactAtZero: "walk: contact at time 0",
        ContactFirst: "walk: contact found by the first probe",
        ContactLater: "walk: contact found by a later probe",
        ContactLast: "walk: contact found by probe 4,096",
        HalvingsFew: "halving: one halving",
        HalvingsMany: "halving: more than 100 halvings",
        HalvingExact: "halving: a midpoint at exactly the threshold",
        AllowanceOne: "allowance: a walk with 1 probe allowed",
        AllowanceTwo: "allowance: a walk with 2",
        AllowanceThree: "allowance: a walk with 3",
        AllowanceOther: "allowance: a walk with 4 to 4,094",
        AllowanceOneLess: "allowance: a walk with 4,095",
        AllowanceFull: "allowance: a walk with 4,096",
        AllowanceAfterOne: "allowance beyond its range, and a NaN or an infinity: refused by 1",
        AllowanceBudget: "allowance below 4,095: budget",
        AllowanceOneShort: "allowance 4,095: budget",
        AllowanceContact: "allowance below 4,096: contact found by the last probe allowed",
        AllowanceClear: "allowance below 4,096: clear after the last probe allowed",
        MinusZeroTime: "walk: an answered time that the Rust writes as minus zero",
        MinusZeroRoot: "roots: an answered root that is written as minus zero without the rule",
    }
}

/// A set of branches, one bit each.
#[derive(Clone, Copy)]
pub struct Branches([u64; 4]);

impl Branches {
    const NONE: Branches = Branches([0; 4]);

    fn with(mut self, branch: Branch) -> Branches {
        self.0[branch as usize / 64] |= 1 << (branch as usize % 64);
        self
    }

    pub fn has(&self, branch: Branch) -> bool {
        self.has_place(branch as usize)
    }

    /// Whether it has the branch at a place of `NAMES`.
    pub fn has_place(&self, place: usize) -> bool {
        self.0[place / 64] >> (place % 64) & 1 == 1
    }
}

const _: () = assert!(NAMES.len() <= 256);

thread_local! {
    static MET: Cell<Branches> = const { Cell::new(Branches::NONE) };
}

/// Notes a branch.
pub fn met(branch: Branch) {
    MET.with(|m| m.set(m.get().with(branch)));
}

/// The branches noted since the last call of this.
pub fn taken() -> Branches {
    MET.with(|m| m.replace(Branches::NONE))
}
