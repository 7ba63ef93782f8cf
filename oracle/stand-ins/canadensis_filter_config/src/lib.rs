//! Stand-in for canadensis_filter_config: named by driver.rs, used by no run.
pub struct Filter;
impl Filter {
    pub fn new(_mask: u32, _id: u32) -> Self {
        Filter
    }
}
pub fn optimize(filters: &mut [Filter], _max: usize) -> &[Filter] {
    filters
}
