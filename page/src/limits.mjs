// The limits of include/tsaghnobir.h that the page's lists need; page/pack.py holds them against the header.

export const POINTS_MOST = 1024;
export const KNOTS_MOST = 1028;
export const KNOT_MOST = 16383;
export const COORDINATE_MOST = 262144;
export const RADIUS_MOST = 4096;
export const RECORD_MOST = 10261;
export const JOB_MOST = 11482;
export const CLAMPS_MOST = 64;
export const SVG_MOST = 18431;
