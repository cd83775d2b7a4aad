/* The box of points as a plain loop that skips NaN, with four running bounds and a flag for each axis; and whether a
 * point is inside a box. */
#include <math.h>
#include <stddef.h>

int c_plain_box(int is_geography, const double *points, size_t length, double *box);
int c_plain_inside(int is_geography, double xmin, double xmax, double ymin, double ymax, double x, double y);

/* Whether bounds, or a point's coordinates, are out of the range of GEOGRAPHY; a NaN is not. */
static int is_out(double xmin, double xmax, double ymin, double ymax)
{
    return xmin < -180 || xmax > 180 || ymin < -90 || ymax > 90;
}

/* 1 where the box is written, 0 where there is none, -1 where a coordinate of GEOGRAPHY is out of its range. */
int c_plain_box(int is_geography, const double *points, size_t length, double *box)
{
    double xmin = INFINITY, xmax = -INFINITY, ymin = INFINITY, ymax = -INFINITY;
    int has_x = 0, has_y = 0;
    for (size_t i = 0; i < length; i += 2) {
        double x = points[i], y = points[i + 1];
        if (x == x) {
            has_x = 1;
            if (x < xmin)
                xmin = x;
            if (x > xmax)
                xmax = x;
        }
        if (y == y) {
            has_y = 1;
            if (y < ymin)
                ymin = y;
            if (y > ymax)
                ymax = y;
        }
    }
    if (is_geography && is_out(xmin, xmax, ymin, ymax))
        return -1;
    if (!has_x || !has_y)
        return 0;
    box[0] = xmin;
    box[1] = xmax;
    box[2] = ymin;
    box[3] = ymax;
    return 1;
}

/* 1 inside, 0 outside, -1 for a box that is none and for numbers of GEOGRAPHY out of their range. */
int c_plain_inside(int is_geography, double xmin, double xmax, double ymin, double ymax, double x, double y)
{
    if (xmin != xmin || xmax != xmax || !(ymin <= ymax))
        return -1;
    if (is_geography && (is_out(xmin, xmin, ymin, ymax) || is_out(xmax, xmax, ymin, ymax) || is_out(x, x, y, y)))
        return -1;
    int in_x = xmin > xmax ? x >= xmin || x <= xmax : x >= xmin && x <= xmax;
    return in_x && y >= ymin && y <= ymax;
}
