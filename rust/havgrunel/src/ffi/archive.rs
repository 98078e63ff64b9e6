//! What the archive holds, declared as c/havgrunel.h does; the single kinds are declared where they are called.

/// What a call for many queries or strips tells: the refusal's number, or 0, and which was refused first, counted from 0, or how many there
/// are where none is to blame.
#[derive(Clone, Copy, Debug, PartialEq, Eq)]
#[repr(C)]
pub struct Many {
    pub refusal: u8,
    pub query: usize,
}

// SAFETY: the declarations are those of c/havgrunel.h. The functions marked safe take numbers alone.
unsafe extern "C" {
    pub safe fn havgrunel_sqrt(a: f64) -> f64;
    pub safe fn havgrunel_default_quadraticity() -> f64;
    pub safe fn havgrunel_default_monotonicity() -> f64;
    pub safe fn havgrunel_default_positivity() -> bool;
    pub safe fn havgrunel_gas_quadraticity() -> f64;
    pub safe fn havgrunel_gas_monotonicity() -> f64;
    pub safe fn havgrunel_gas_positivity() -> bool;
    pub safe fn havgrunel_derivative(x: f64) -> u8;
    pub safe fn havgrunel_inner_node(
        before: f64,
        here: f64,
        after: f64,
        average: f64,
        next: f64,
    ) -> f64;

    pub fn havgrunel_build(
        knots: *const f64,
        knots_count: usize,
        averages: *const f64,
        averages_count: usize,
        quadraticity: f64,
        monotonicity: f64,
        positive: bool,
        split: u8,
        hold: bool,
        seamed: bool,
        seam_count: usize,
        seam_node: f64,
        nodes: *mut f64,
        nodes_count: usize,
        tags: *mut u16,
        tags_count: usize,
        slots: *mut f64,
        slots_count: usize,
        sections: *mut usize,
        sections_count: usize,
        tail: *mut f64,
        tail_count: usize,
    ) -> u8;

    pub fn havgrunel_grow(
        knots: *const f64,
        knots_count: usize,
        averages: *const f64,
        averages_count: usize,
        quadraticity: f64,
        monotonicity: f64,
        positive: bool,
        split: u8,
        localisation: usize,
        final_size: usize,
        grown: bool,
        previous_sections: usize,
        previous_held: bool,
        previous_tags: *const u16,
        previous_tags_count: usize,
        previous_slots: *const f64,
        previous_slots_count: usize,
        nodes: *mut f64,
        nodes_count: usize,
        tags: *mut u16,
        tags_count: usize,
        slots: *mut f64,
        slots_count: usize,
        sections: *mut usize,
        sections_count: usize,
        tail: *mut f64,
        tail_count: usize,
    ) -> u8;

    pub fn havgrunel_build_with_column(
        knots: *const f64,
        knots_count: usize,
        averages: *const f64,
        averages_count: usize,
        quadraticity: f64,
        monotonicity: f64,
        positive: bool,
        split: u8,
        hold: bool,
        seamed: bool,
        seam_count: usize,
        seam_node: f64,
        nodes: *mut f64,
        nodes_count: usize,
        tags: *mut u16,
        tags_count: usize,
        slots: *mut f64,
        slots_count: usize,
        sections: *mut usize,
        sections_count: usize,
        tail: *mut f64,
        tail_count: usize,
        column: *mut f64,
        column_count: usize,
    ) -> u8;

    pub fn havgrunel_grow_with_column(
        knots: *const f64,
        knots_count: usize,
        averages: *const f64,
        averages_count: usize,
        quadraticity: f64,
        monotonicity: f64,
        positive: bool,
        split: u8,
        localisation: usize,
        final_size: usize,
        grown: bool,
        previous_sections: usize,
        previous_held: bool,
        previous_tags: *const u16,
        previous_tags_count: usize,
        previous_slots: *const f64,
        previous_slots_count: usize,
        nodes: *mut f64,
        nodes_count: usize,
        tags: *mut u16,
        tags_count: usize,
        slots: *mut f64,
        slots_count: usize,
        sections: *mut usize,
        sections_count: usize,
        tail: *mut f64,
        tail_count: usize,
        column: *mut f64,
        column_count: usize,
    ) -> u8;

    pub fn havgrunel_month_knots(
        first: i64,
        last: i64,
        months: u8,
        knots: *mut f64,
        knots_count: usize,
        count: *mut usize,
        count_count: usize,
    ) -> u8;

    pub fn havgrunel_build_months(
        first: i64,
        last: i64,
        months: u8,
        averages: *const f64,
        averages_count: usize,
        quadraticity: f64,
        monotonicity: f64,
        positive: bool,
        split: u8,
        hold: bool,
        seamed: bool,
        seam_count: usize,
        seam_node: f64,
        knots: *mut f64,
        knots_count: usize,
        nodes: *mut f64,
        nodes_count: usize,
        tags: *mut u16,
        tags_count: usize,
        slots: *mut f64,
        slots_count: usize,
        sections: *mut usize,
        sections_count: usize,
        tail: *mut f64,
        tail_count: usize,
    ) -> u8;

    pub fn havgrunel_sheet(
        knots: *const f64,
        knots_count: usize,
        averages: *const f64,
        averages_count: usize,
        quadraticity: f64,
        monotonicity: f64,
        positive: bool,
        split: u8,
        left_given: bool,
        left_node: f64,
        right_given: bool,
        right_node: f64,
        start: f64,
        place: usize,
        nodes: *mut f64,
        nodes_count: usize,
        tags: *mut u16,
        tags_count: usize,
        slots: *mut f64,
        slots_count: usize,
        answer: *mut f64,
        answer_count: usize,
    ) -> u8;

    pub fn havgrunel_build_in_sheets(
        knots: *const f64,
        knots_count: usize,
        averages: *const f64,
        averages_count: usize,
        quadraticity: f64,
        monotonicity: f64,
        positive: bool,
        split: u8,
        cuts: *const usize,
        cuts_count: usize,
        nodes: *mut f64,
        nodes_count: usize,
        tags: *mut u16,
        tags_count: usize,
        slots: *mut f64,
        slots_count: usize,
        sections: *mut usize,
        sections_count: usize,
        tail: *mut f64,
        tail_count: usize,
    ) -> u8;

    pub fn havgrunel_value(
        knots: *const f64,
        knots_count: usize,
        tags: *const u16,
        tags_count: usize,
        slots: *const f64,
        slots_count: usize,
        tail_value: f64,
        tail_total: f64,
        tail_from: f64,
        extrapolate: bool,
        x: f64,
        answer: *mut f64,
        answer_count: usize,
    ) -> u8;

    pub fn havgrunel_primitive(
        knots: *const f64,
        knots_count: usize,
        tags: *const u16,
        tags_count: usize,
        slots: *const f64,
        slots_count: usize,
        tail_value: f64,
        tail_total: f64,
        tail_from: f64,
        extrapolate: bool,
        x: f64,
        answer: *mut f64,
        answer_count: usize,
    ) -> u8;

    pub fn havgrunel_values(
        knots: *const f64,
        knots_count: usize,
        tags: *const u16,
        tags_count: usize,
        slots: *const f64,
        slots_count: usize,
        tail_value: f64,
        tail_total: f64,
        tail_from: f64,
        extrapolate: bool,
        xs: *const f64,
        xs_count: usize,
        answers: *mut f64,
        answers_count: usize,
    ) -> Many;

    pub fn havgrunel_primitives(
        knots: *const f64,
        knots_count: usize,
        tags: *const u16,
        tags_count: usize,
        slots: *const f64,
        slots_count: usize,
        tail_value: f64,
        tail_total: f64,
        tail_from: f64,
        extrapolate: bool,
        xs: *const f64,
        xs_count: usize,
        answers: *mut f64,
        answers_count: usize,
    ) -> Many;

    pub fn havgrunel_strip(
        knots: *const f64,
        knots_count: usize,
        tags: *const u16,
        tags_count: usize,
        slots: *const f64,
        slots_count: usize,
        tail_value: f64,
        tail_total: f64,
        tail_from: f64,
        extrapolate: bool,
        a: f64,
        b: f64,
        answer: *mut f64,
        answer_count: usize,
    ) -> u8;

    pub fn havgrunel_strips(
        knots: *const f64,
        knots_count: usize,
        tags: *const u16,
        tags_count: usize,
        slots: *const f64,
        slots_count: usize,
        tail_value: f64,
        tail_total: f64,
        tail_from: f64,
        extrapolate: bool,
        starts: *const f64,
        starts_count: usize,
        ends: *const f64,
        ends_count: usize,
        answers: *mut f64,
        answers_count: usize,
    ) -> Many;

    pub fn havgrunel_strip_run(
        knots: *const f64,
        knots_count: usize,
        tags: *const u16,
        tags_count: usize,
        slots: *const f64,
        slots_count: usize,
        tail_value: f64,
        tail_total: f64,
        tail_from: f64,
        extrapolate: bool,
        edges: *const f64,
        edges_count: usize,
        answers: *mut f64,
        answers_count: usize,
    ) -> Many;

    pub fn havgrunel_strip_between(
        knots: *const f64,
        knots_count: usize,
        column: *const f64,
        column_count: usize,
        i: usize,
        j: usize,
        answer: *mut f64,
        answer_count: usize,
    ) -> u8;

    pub fn havgrunel_column_entry(
        column: *const f64,
        column_count: usize,
        i: usize,
        answer: *mut f64,
        answer_count: usize,
    ) -> u8;

    pub fn havgrunel_record(
        points: usize,
        slots: *const f64,
        slots_count: usize,
        number: usize,
        into: *mut f64,
        into_count: usize,
    ) -> u8;

    pub fn havgrunel_section(
        tag: u16,
        slots: *const f64,
        slots_count: usize,
        x: f64,
        answer: *mut f64,
        answer_count: usize,
        finite: *mut bool,
        finite_count: usize,
    ) -> u8;
}
