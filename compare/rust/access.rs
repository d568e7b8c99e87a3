
// Below: reading of private fields for the driver, appended when it is built.
impl Rsp {
    /// Row, loaded, drawn, clip code and screen z of a slot.
    pub fn shown_slot(&self, k: usize) -> (u32, bool, bool, Option<u8>, Option<f64>) {
        (self.cache_global_index[k], self.loaded[k], self.used[k], self.clip_codes[k], self.screen_z[k])
    }
    /// The matrix stack, bottom first.
    pub fn shown_stack(&self) -> &[Mat4] {
        &self.model_stack[..self.model_stack_size]
    }
    /// Entries of tables 1 to 3, which stay here until `finish`.
    pub fn shown_counts(&self) -> [usize; 3] {
        [self.mvp_table.len(), self.viewport_table.len(), self.texcoord_table.len()]
    }
}
