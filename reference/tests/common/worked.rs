//! The file and the rays of "Rays and places tried", and a ray that takes the most probes.

use reference::field::Ray;
use reference::part::FileBuilder;

/// The ray that the lister's case casts.
pub const AXIS: Ray = Ray {
    a: [-1024, 0, 0],
    b: [1024, 0, 0],
};

/// That ray moved to another y.
pub fn at_y(y: i32) -> Ray {
    Ray {
        a: [-1024, y, 0],
        b: [1024, y, 0],
    }
}

/// File K.
pub fn file_k() -> Vec<u8> {
    FileBuilder::new(1).point(512, [0, 0, 0], 4).build()
}

/// Large points that nearly cancel, and a ray of which every tick is crossing.
#[allow(dead_code)]
pub fn all_crossing() -> (Vec<u8>, Ray) {
    let file = FileBuilder::new(1)
        .point(1024, [0; 3], 4096)
        .point(1024, [0; 3], -4096)
        .sum()
        .point(1024, [0; 3], 4096)
        .sum()
        .point(1024, [0; 3], -4095)
        .sum()
        .build();
    let ray = Ray {
        a: [100, 0, 0],
        b: [700, 0, 0],
    };
    (file, ray)
}
