/// Put behind the original's text of tmem.rs by the build, where private fields can be reached: those that are compared.
impl Tmem {
    /// The map of written addresses.
    pub(crate) fn written_words(&self) -> &[u64; TMEM_BYTES / 64] {
        &self.written
    }

    /// For each address why its load was rejected.
    pub(crate) fn rejected(&self) -> &[Option<crate::Diagnostic>; TMEM_BYTES] {
        &self.rejected
    }

    /// The same, to be set by hand: no load leaves a reason at one address alone.
    pub(crate) fn rejected_mut(&mut self) -> &mut [Option<crate::Diagnostic>; TMEM_BYTES] {
        &mut self.rejected
    }
}
