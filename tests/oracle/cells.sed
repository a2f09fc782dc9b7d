# The source's build with the cells of the record in place of 64 on each axis: one change a line, and no other.
s/medium\.majorant_resolution != \[64; 3\]/false/
s/(0\.\.64usize\.pow(3))/(0..medium.majorant_resolution.iter().map(|n| *n as usize).product::<usize>())/
s/let cell = \[index % 64, (index \/ 64) % 64, index \/ 4096\];/let [nx, ny, _] = medium.majorant_resolution.map(|n| n as usize); let cell = [index % nx, index \/ nx % ny, index \/ (nx * ny)];/
s/let t = (cell\[axis\] + increment) as f32 \/ 64\.0;/let t = (cell[axis] + increment) as f32 \/ medium.majorant_resolution[axis] as f32;/
