// E0308: a position in a stripe is not where a stripe starts in its batch.
use gussetglen::StripeReport;

pub fn raised(report: StripeReport) {
    if let Some(parcel) = report.failing() {
        let position = parcel.position();
        let _ = report.clone().raise_to(position);
    }
}

fn main() {}
