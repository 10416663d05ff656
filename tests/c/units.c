/* A function that takes ulps is given a node's value or a reciprocal's: compiled with -DGIVEN=reciprocal it must be
   taken, and with -DGIVEN=node it must be refused. */
#include <yildegga.h>

uint64_t twice(yildegga_ulps ulps);
uint64_t given(yildegga_node_read node, yildegga_reciprocal_given reciprocal);

uint64_t twice(yildegga_ulps ulps)
{
    return 2 * ulps.count;
}

uint64_t given(yildegga_node_read node, yildegga_reciprocal_given reciprocal)
{
    return node.number + reciprocal.number + twice(GIVEN.value);
}
