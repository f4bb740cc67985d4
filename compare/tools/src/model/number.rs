//! 'Root and length' and 'Distance' of document 01.

/// Left-to-right sum of products, each operation rounded once.
pub fn dot(a: &[f32], b: &[f32]) -> f32 {
    let mut sum = 0.0f32;
    for i in 0..a.len() {
        sum += a[i] * b[i];
    }
    sum
}

/// A norm above f32 1e-10 divides each component; otherwise they are stored undivided.
pub fn normalized(v: &[f32]) -> Vec<f32> {
    let norm = dot(v, v).sqrt();
    if norm > f32::from_bits(0x2EDB_E6FF) {
        return v.iter().map(|x| x / norm).collect();
    }
    v.to_vec()
}

/// A distance or centre component that comes out NaN is bits 7FC00000.
fn canonical(x: f32) -> f32 {
    if x.is_nan() {
        return f32::from_bits(0x7FC0_0000);
    }
    x
}

/// 1.0 minus the sum of products.
pub fn distance(a: &[f32], b: &[f32]) -> f32 {
    canonical(1.0 - dot(a, b))
}

/// The sum from +0.0, in order, over the number of vectors.
pub fn mean<'a>(vectors: impl ExactSizeIterator<Item = &'a [f32]>, dimension: usize) -> Vec<f32> {
    let size = vectors.len() as f32;
    let mut sum = vec![0.0f32; dimension];
    for v in vectors {
        for i in 0..dimension {
            sum[i] += v[i];
        }
    }
    sum.iter().map(|x| canonical(x / size)).collect()
}
