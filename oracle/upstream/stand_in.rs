/// The stand-in never fails.
#[derive(Clone, Debug, Eq, PartialEq)]
pub enum BridgeError {}

/// Accepts every proof and gives no bytes.
pub fn check_candidate_with_proof(
    _declaration_name: &str,
    _candidate: &EquationCandidate,
    _proof_term: &str,
) -> Result<Vec<u8>, BridgeError> {
    Ok(Vec::new())
}
