//! Types that the original's `Node` and `Scene3D` name and that no compared
//! call reads.

pub mod serde_json {
    #[derive(Clone, Debug)]
    pub struct Value;
}

pub mod audio {
    #[derive(Clone, Debug)]
    pub struct AudioEmitter;
    #[derive(Clone, Debug)]
    pub struct AudioSource;
    #[derive(Clone, Copy, Debug)]
    pub struct AudioEmitterId(pub u32);
    #[derive(Clone, Copy, Debug)]
    pub struct AudioSourceId(pub u32);
}

pub mod camera {
    #[derive(Clone, Debug)]
    pub struct Camera;
}

pub mod light {
    #[derive(Clone, Debug)]
    pub struct Light;
}

pub mod material {
    #[derive(Clone, Debug)]
    pub struct Material;
}

pub mod texture {
    #[derive(Clone, Debug)]
    pub struct Texture;
}
