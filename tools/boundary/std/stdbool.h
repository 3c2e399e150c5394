/* What the header takes of stdbool.h: the kit's compiler comes without it. */
#ifndef BOUNDARY_STDBOOL_H
#define BOUNDARY_STDBOOL_H
#ifndef __cplusplus
#define bool _Bool
#define true 1
#define false 0
#endif
#endif
