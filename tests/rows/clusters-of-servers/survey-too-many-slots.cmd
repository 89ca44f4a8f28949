verify --survey survey-too-many-slots.survey
