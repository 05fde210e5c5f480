
/// A line on a term, as the search takes it. This part of the module is not the Rust's: it hands on what is private above.
#[derive(Clone, Debug)]
pub struct OwnLine(RewriteStep);

impl OwnLine {
    #[must_use]
    pub const fn axiom(&self) -> SemiringAxiom {
        self.0.axiom
    }

    #[must_use]
    pub const fn forward(&self) -> bool {
        self.0.forward
    }

    /// Its place, outermost first: whether it goes on in the left part.
    pub fn place(&self) -> impl Iterator<Item = bool> {
        let is_left = |frame: &ContextFrame| {
            matches!(
                frame,
                ContextFrame::AddLeft { .. } | ContextFrame::MulLeft { .. }
            )
        };
        self.0.context.iter().rev().map(is_left)
    }

    /// The whole new term.
    #[must_use]
    pub const fn target(&self) -> &Term {
        &self.0.target
    }
}

/// Every line on a term, also if others lead to the same result: those at the root as the search gives them, then those
/// in the left part, then those in the right. No limit is looked at.
#[must_use]
pub fn own_lines(term: &Term) -> Vec<OwnLine> {
    let steps = all_rewrites(term).into_iter();
    steps.map(OwnLine).collect()
}

fn all_rewrites(term: &Term) -> Vec<RewriteStep> {
    let mut steps = root_rewrites(term);
    if let Term::Add(left, right) | Term::Mul(left, right) = term {
        let is_sum = matches!(term, Term::Add(..));
        steps.extend(within(left, || into_left(is_sum, right)));
        steps.extend(within(right, || into_right(is_sum, left)));
    }
    steps
}

/// The lines in a part, taken on the whole term.
fn within(part: &Term, frame: impl Fn() -> ContextFrame) -> impl Iterator<Item = RewriteStep> {
    all_rewrites(part).into_iter().map(move |mut step| {
        let frame = frame();
        step.source = filled(&frame, step.source);
        step.target = filled(&frame, step.target);
        step.context.push(frame);
        step
    })
}

fn into_left(is_sum: bool, right: &Term) -> ContextFrame {
    let right = right.clone();
    match is_sum {
        true => ContextFrame::AddLeft { right },
        false => ContextFrame::MulLeft { right },
    }
}

fn into_right(is_sum: bool, left: &Term) -> ContextFrame {
    let left = left.clone();
    match is_sum {
        true => ContextFrame::AddRight { left },
        false => ContextFrame::MulRight { left },
    }
}

/// The whole term with this part.
fn filled(frame: &ContextFrame, part: Term) -> Term {
    let part = Box::new(part);
    match frame.clone() {
        ContextFrame::AddLeft { right } => Term::Add(part, Box::new(right)),
        ContextFrame::AddRight { left } => Term::Add(Box::new(left), part),
        ContextFrame::MulLeft { right } => Term::Mul(part, Box::new(right)),
        ContextFrame::MulRight { left } => Term::Mul(Box::new(left), part),
    }
}

/// The proof text of a path of lines.
#[must_use]
pub fn own_proof(candidate: &EquationCandidate, path: Vec<OwnLine>) -> String {
    let steps: Vec<RewriteStep> = path.into_iter().map(|line| line.0).collect();
    render_path(candidate, &steps)
}
